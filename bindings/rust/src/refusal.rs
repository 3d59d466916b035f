//! The refusals.

use core::error::Error;
use core::fmt;

/// Why a call did nothing: it wrote nothing, changed nothing, and can be made again once its cause
/// is put right.
///
/// Where several causes apply, the one with the lowest number is given.
#[derive(Clone, Copy, Debug, PartialEq, Eq, PartialOrd, Ord, Hash)]
#[repr(u8)]
pub enum Refusal {
    /// The call is not allowed at this point of the session.
    NotAllowedHere = 1,
    /// An unknown suite, PSK kind, group, side or name. The types of this crate have no unknown
    /// values, so only the conversions from numbers give it.
    Unknown = 2,
    /// The secret asked for is not held; Early or Binder without a PSK.
    NotHeld = 3,
    /// A PSK, shared secret, HMAC key, salt or Expand secret of a wrong size.
    SecretSize = 4,
    /// A shared secret of zeros, x25519 and x448.
    ZeroSharedSecret = 5,
    /// Neither a key exchange nor a PSK.
    NoSecret = 6,
    /// A message or cut ClientHello of a wrong length, or a length field that is not the body's.
    MessageLength = 7,
    /// A message type that is not taken here; a cut ClientHello that does not start with 1.
    MessageType = 8,
    /// A transcript, hash input, HMAC message or Extract input over its limit.
    InputTooLong = 9,
    /// A label, context, info or asked length outside its range; a journal payload over 65,535
    /// bytes.
    OutOfRange = 10,
    /// The output is too short.
    OutputTooShort = 11,
    /// 65,535 updates were made on that side.
    TooManyUpdates = 12,
    /// A damaged record of a journal. The reader gives [`Damaged`](crate::journal::Damaged), which
    /// says where, and which becomes this.
    DamagedRecord = 13,
}

impl Refusal {
    /// Every refusal, by its number.
    pub const ALL: [Self; 13] = [
        Self::NotAllowedHere,
        Self::Unknown,
        Self::NotHeld,
        Self::SecretSize,
        Self::ZeroSharedSecret,
        Self::NoSecret,
        Self::MessageLength,
        Self::MessageType,
        Self::InputTooLong,
        Self::OutOfRange,
        Self::OutputTooShort,
        Self::TooManyUpdates,
        Self::DamagedRecord,
    ];

    /// Its number, 1 to 13.
    pub const fn number(self) -> u8 {
        self as u8
    }

    pub(crate) fn from_number(number: u8) -> Option<Self> {
        let mut refusals = Self::ALL.into_iter();
        refusals.find(|refusal| refusal.number() == number)
    }
}

impl fmt::Display for Refusal {
    fn fmt(&self, f: &mut fmt::Formatter<'_>) -> fmt::Result {
        let sentence = match self {
            Self::NotAllowedHere => {
                "the session is not at the point of this call: a step is missing, was made twice, \
                 or comes after the close"
            }
            Self::Unknown => "the number stands for no suite or group that is known here",
            Self::NotHeld => {
                "the secret is not held: it is not made yet or already wiped, or there is no \
                 pre-shared key"
            }
            Self::SecretSize => "the key or secret has a wrong size",
            Self::ZeroSharedSecret => {
                "the shared secret is all zeros: the peer's public value is bad, and the \
                 handshake must be aborted"
            }
            Self::NoSecret => "there is neither a key exchange nor a pre-shared key",
            Self::MessageLength => {
                "the bytes are not one whole handshake message: too few, too many, or not as many \
                 as its length field says"
            }
            Self::MessageType => "a handshake message of this type is not taken here",
            Self::InputTooLong => "the input, or all messages together, are over their limit",
            Self::OutOfRange => {
                "the label, context, info, asked length or journal payload is outside its range"
            }
            Self::OutputTooShort => "the output buffer is too short",
            Self::TooManyUpdates => {
                "the keys of this side were updated 65,535 times: set up a new connection"
            }
            Self::DamagedRecord => "the journal record is damaged",
        };
        write!(f, "{sentence} (refusal {})", self.number())
    }
}

impl Error for Refusal {}
