//! The session.

use crate::sys::{self, SessionBytes};
use crate::{Exporter, Group, HashValue, KeyName, Psk, Refusal, Side, Suite, TrafficKeys};
use alloc::boxed::Box;
use core::fmt;

/// One connection's key schedule.
///
/// A session goes through the points Fresh, Early, Handshake, Application and Complete, by the
/// calls of these names, and to Closed from anywhere. Every call says where it is allowed;
/// elsewhere it is refused with [`Refusal::NotAllowedHere`]. A refused call changes nothing.
///
/// Each secret is wiped at the point where it is no longer needed, and the rest when the session is
/// closed or dropped. The session lies on the heap, so that moving it leaves no copy behind.
pub struct Session {
    bytes: Box<SessionBytes>,
}

impl Session {
    /// A fresh session.
    pub fn new() -> Self {
        let mut bytes = Box::new([0; size_of::<SessionBytes>()]);
        sys::fresh(&mut bytes);
        Self { bytes }
    }

    /// Chooses the suite and the pre-shared key. At Fresh; goes to Early.
    ///
    /// Refused with [`SecretSize`](Refusal::SecretSize) for a PSK that is not of the size that
    /// [`Psk`] says.
    pub fn begin(&mut self, suite: Suite, psk: Psk<'_>) -> Result<(), Refusal> {
        sys::begin(&mut self.bytes, suite.number(), psk.kind(), psk.bytes())
    }

    /// Takes one whole handshake message, its header of 4 bytes included, into the transcript: at
    /// Early the ClientHello and the ServerHello, at Handshake the server's messages up to its
    /// Finished, at Application the client's up to its own.
    ///
    /// Refused with [`MessageLength`](Refusal::MessageLength) for bytes that are not 4 to 65,535,
    /// or not as many as the header says, [`MessageType`](Refusal::MessageType) for a message that
    /// does not belong here, and [`InputTooLong`](Refusal::InputTooLong) where all messages would
    /// be over 1,048,576 bytes.
    pub fn feed(&mut self, message: &[u8]) -> Result<(), Refusal> {
        sys::feed(&mut self.bytes, message)
    }

    /// Makes the client early traffic and early exporter secrets. Once at Early, between
    /// ClientHello and ServerHello.
    ///
    /// Refused with [`NotHeld`](Refusal::NotHeld) without a PSK.
    pub fn early(&mut self) -> Result<(), Refusal> {
        sys::early(&mut self.bytes)
    }

    /// Makes the handshake secrets of the key exchange's shared secret, which is as long as the
    /// group's arithmetic gives it, leading zeros kept. [`Group::None`] goes with no bytes. At
    /// Early, with the ServerHello fed; goes to Handshake.
    ///
    /// Refused with [`SecretSize`](Refusal::SecretSize), with
    /// [`ZeroSharedSecret`](Refusal::ZeroSharedSecret) for x25519 and x448 where every byte is
    /// zero, and with [`NoSecret`](Refusal::NoSecret) for no group without a PSK.
    pub fn handshake(&mut self, group: Group, shared_secret: &[u8]) -> Result<(), Refusal> {
        sys::handshake(&mut self.bytes, group.number(), shared_secret)
    }

    /// Makes the application and exporter secrets. At Handshake, with the server's Finished fed;
    /// goes to Application.
    pub fn application(&mut self) -> Result<(), Refusal> {
        sys::application(&mut self.bytes)
    }

    /// Makes the resumption secret and wipes what only the handshake needed. At Application, with
    /// the client's Finished fed; goes to Complete.
    pub fn complete(&mut self) -> Result<(), Refusal> {
        sys::complete(&mut self.bytes)
    }

    /// Replaces a side's application traffic secret by the next (RFC 8446, 7.2). At Complete.
    ///
    /// Refused with [`TooManyUpdates`](Refusal::TooManyUpdates) after 65,535 of that side.
    pub fn update(&mut self, side: Side) -> Result<(), Refusal> {
        sys::update(&mut self.bytes, side as u8)
    }

    /// Wipes everything. Allowed everywhere; goes to Closed, where nothing else is.
    pub fn close(&mut self) {
        sys::close(&mut self.bytes);
    }

    /// The traffic key and IV of a secret. From Early to Complete.
    ///
    /// Refused with [`NotHeld`](Refusal::NotHeld) where that secret is not made yet or already
    /// wiped.
    pub fn keys(&self, name: KeyName) -> Result<TrafficKeys, Refusal> {
        TrafficKeys::written(|out| sys::keys(&self.bytes, name as u8, out))
    }

    /// [`keys`](Self::keys) into a buffer: gives its written front, the key and behind it the
    /// [`IV_BYTES`](crate::IV_BYTES) of the IV.
    ///
    /// Refused with [`OutputTooShort`](Refusal::OutputTooShort) too.
    pub fn keys_into<'a>(&self, name: KeyName, out: &'a mut [u8]) -> Result<&'a mut [u8], Refusal> {
        let written = sys::keys(&self.bytes, name as u8, out)?;
        Ok(&mut out[..written])
    }

    /// The verify_data of a side's Finished (RFC 8446, 4.4.4) over the messages fed. The server's
    /// at Handshake, the client's at Application, each until that Finished is fed.
    pub fn finished(&self, side: Side) -> Result<HashValue, Refusal> {
        HashValue::written(|out| sys::finished(&self.bytes, side as u8, out))
    }

    /// [`finished`](Self::finished) into a buffer: gives its written front.
    ///
    /// Refused with [`OutputTooShort`](Refusal::OutputTooShort) too.
    pub fn finished_into<'a>(
        &self,
        side: Side,
        out: &'a mut [u8],
    ) -> Result<&'a mut [u8], Refusal> {
        let written = sys::finished(&self.bytes, side as u8, out)?;
        Ok(&mut out[..written])
    }

    /// Whether received bytes are the verify_data of a side's Finished. Allowed where
    /// [`finished`](Self::finished) is. A wrong length is no refusal: the bytes differ.
    pub fn check(&self, side: Side, received: &[u8]) -> Result<Verdict, Refusal> {
        let matches = sys::check(&self.bytes, side as u8, received)?;
        Ok(if matches {
            Verdict::Matches
        } else {
            Verdict::Differs
        })
    }

    /// The PSK binder (RFC 8446, 4.2.11.2) over a ClientHello that is cut before its list of
    /// binders. At Early.
    ///
    /// Refused with [`NotHeld`](Refusal::NotHeld) without a PSK,
    /// [`MessageLength`](Refusal::MessageLength) for bytes that are not 4 to 65,535, and
    /// [`MessageType`](Refusal::MessageType) where the first is not 1.
    pub fn binder(&self, cut_hello: &[u8]) -> Result<HashValue, Refusal> {
        HashValue::written(|out| sys::binder(&self.bytes, cut_hello, out))
    }

    /// [`binder`](Self::binder) into a buffer: gives its written front.
    ///
    /// Refused with [`OutputTooShort`](Refusal::OutputTooShort) too.
    pub fn binder_into<'a>(
        &self,
        cut_hello: &[u8],
        out: &'a mut [u8],
    ) -> Result<&'a mut [u8], Refusal> {
        let written = sys::binder(&self.bytes, cut_hello, out)?;
        Ok(&mut out[..written])
    }

    /// Fills `out` with keying material (RFC 8446, 7.5). From Early to Complete.
    ///
    /// Refused with [`NotHeld`](Refusal::NotHeld) where that exporter's secret is not made yet or
    /// already wiped, with [`OutOfRange`](Refusal::OutOfRange) for a label that is not 1 to 249
    /// bytes, a context over 65,535 or an `out` over 255 times the hash, and with
    /// [`OutputTooShort`](Refusal::OutputTooShort) for an empty `out`.
    ///
    /// ```
    /// # use bindcricket::{Exporter, Psk, Refusal, Session, Suite};
    /// # fn main() -> Result<(), Refusal> {
    /// # let client_hello = [1, 0, 0, 0];
    /// let mut session = Session::new();
    /// session.begin(Suite::Aes256GcmSha384, Psk::External(b"agreed before"))?;
    /// session.feed(&client_hello)?;
    /// session.early()?;
    /// let mut token = [0; 64];
    /// session.export(Exporter::Early, b"EXPORTER-example-token", b"", &mut token)?;
    /// # assert_ne!(token, [0; 64]);
    /// # Ok(())
    /// # }
    /// ```
    pub fn export(
        &self,
        exporter: Exporter,
        label: &[u8],
        context: &[u8],
        out: &mut [u8],
    ) -> Result<(), Refusal> {
        sys::export(&self.bytes, exporter as u8, label, context, out.len(), out)?;
        Ok(())
    }
}

impl Default for Session {
    fn default() -> Self {
        Self::new()
    }
}

impl Drop for Session {
    /// Closes the session. What the call does is unknown to the compiler, so it cannot be left out
    /// as a write that nothing reads.
    fn drop(&mut self) {
        self.close();
    }
}

/// Shows no byte of the session.
impl fmt::Debug for Session {
    fn fmt(&self, f: &mut fmt::Formatter<'_>) -> fmt::Result {
        f.debug_struct("Session").finish_non_exhaustive()
    }
}

/// What [`Session::check`] found. A verdict that is not looked at is a warning of the compiler.
#[derive(Clone, Copy, Debug, PartialEq, Eq, Hash)]
#[must_use = "a handshake whose Finished differs must be aborted"]
pub enum Verdict {
    /// The received bytes are the Finished value.
    Matches,
    /// They are not: the handshake must be aborted (decrypt_error).
    Differs,
}
