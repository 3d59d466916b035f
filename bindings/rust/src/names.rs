//! What a call is told by number in C: suites, PSK kinds, groups, sides and the names of secrets.

use crate::Refusal;
use core::fmt;

/// A cipher suite of TLS 1.3 (RFC 8446, B.4). It decides the hash and the size of the keys.
#[derive(Clone, Copy, Debug, PartialEq, Eq, Hash)]
#[repr(u16)]
pub enum Suite {
    /// TLS_AES_128_GCM_SHA256
    Aes128GcmSha256 = 0x1301,
    /// TLS_AES_256_GCM_SHA384
    Aes256GcmSha384 = 0x1302,
    /// TLS_CHACHA20_POLY1305_SHA256
    Chacha20Poly1305Sha256 = 0x1303,
    /// TLS_AES_128_CCM_SHA256
    Aes128CcmSha256 = 0x1304,
    /// TLS_AES_128_CCM_8_SHA256
    Aes128Ccm8Sha256 = 0x1305,
}

impl Suite {
    /// Every suite.
    pub const ALL: [Self; 5] = [
        Self::Aes128GcmSha256,
        Self::Aes256GcmSha384,
        Self::Chacha20Poly1305Sha256,
        Self::Aes128CcmSha256,
        Self::Aes128Ccm8Sha256,
    ];

    /// The number that stands for it in a handshake message.
    pub const fn number(self) -> u16 {
        self as u16
    }

    /// The bytes of its hash: 48 for SHA-384, 32 for SHA-256.
    pub const fn hash_length(self) -> usize {
        match self {
            Self::Aes256GcmSha384 => 48,
            _ => 32,
        }
    }

    /// The bytes of its traffic keys, without the IV.
    pub const fn key_length(self) -> usize {
        match self {
            Self::Aes256GcmSha384 | Self::Chacha20Poly1305Sha256 => 32,
            _ => 16,
        }
    }
}

impl TryFrom<u16> for Suite {
    type Error = Refusal;

    /// Reads the number of a handshake message; one that is no suite here gives
    /// [`Refusal::Unknown`].
    fn try_from(number: u16) -> Result<Self, Refusal> {
        let mut suites = Self::ALL.into_iter();
        suites
            .find(|suite| suite.number() == number)
            .ok_or(Refusal::Unknown)
    }
}

/// A group of the key exchange (RFC 8446, 4.2.7).
#[derive(Clone, Copy, Debug, PartialEq, Eq, Hash)]
#[repr(u16)]
pub enum Group {
    /// No key exchange, as in psk_ke: there is no shared secret.
    None = 0,
    /// secp256r1, a shared secret of 32 bytes
    Secp256r1 = 0x0017,
    /// secp384r1, 48 bytes
    Secp384r1 = 0x0018,
    /// secp521r1, 66 bytes
    Secp521r1 = 0x0019,
    /// x25519, 32 bytes
    X25519 = 0x001d,
    /// x448, 56 bytes
    X448 = 0x001e,
    /// ffdhe2048, 256 bytes
    Ffdhe2048 = 0x0100,
    /// ffdhe3072, 384 bytes
    Ffdhe3072 = 0x0101,
    /// ffdhe4096, 512 bytes
    Ffdhe4096 = 0x0102,
    /// ffdhe6144, 768 bytes
    Ffdhe6144 = 0x0103,
    /// ffdhe8192, 1,024 bytes
    Ffdhe8192 = 0x0104,
}

impl Group {
    /// Every group, [`Group::None`] first.
    pub const ALL: [Self; 11] = [
        Self::None,
        Self::Secp256r1,
        Self::Secp384r1,
        Self::Secp521r1,
        Self::X25519,
        Self::X448,
        Self::Ffdhe2048,
        Self::Ffdhe3072,
        Self::Ffdhe4096,
        Self::Ffdhe6144,
        Self::Ffdhe8192,
    ];

    /// The number that stands for it in a handshake message; 0 for none.
    pub const fn number(self) -> u16 {
        self as u16
    }

    /// The bytes of its shared secret.
    pub const fn secret_length(self) -> usize {
        match self {
            Self::None => 0,
            Self::Secp256r1 | Self::X25519 => 32,
            Self::Secp384r1 => 48,
            Self::Secp521r1 => 66,
            Self::X448 => 56,
            Self::Ffdhe2048 => 256,
            Self::Ffdhe3072 => 384,
            Self::Ffdhe4096 => 512,
            Self::Ffdhe6144 => 768,
            Self::Ffdhe8192 => 1024,
        }
    }
}

impl TryFrom<u16> for Group {
    type Error = Refusal;

    /// Reads the number of a handshake message; one that is no group here gives
    /// [`Refusal::Unknown`]. So does 0: a peer cannot name [`Group::None`].
    fn try_from(number: u16) -> Result<Self, Refusal> {
        let mut groups = Self::ALL.into_iter();
        groups
            .find(|group| group.number() == number && *group != Self::None)
            .ok_or(Refusal::Unknown)
    }
}

/// The pre-shared key that a session begins with.
#[derive(Clone, Copy)]
pub enum Psk<'a> {
    /// No pre-shared key.
    None,
    /// One that was agreed elsewhere, 1 to 128 bytes.
    External(&'a [u8]),
    /// One that came with a session ticket, as many bytes as the suite's hash has.
    Resumption(&'a [u8]),
}

impl<'a> Psk<'a> {
    pub(crate) fn kind(self) -> u8 {
        match self {
            Self::None => 0,
            Self::External(_) => 1,
            Self::Resumption(_) => 2,
        }
    }

    pub(crate) fn bytes(self) -> &'a [u8] {
        match self {
            Self::None => &[],
            Self::External(bytes) | Self::Resumption(bytes) => bytes,
        }
    }
}

/// Shows the kind and not the key.
impl fmt::Debug for Psk<'_> {
    fn fmt(&self, f: &mut fmt::Formatter<'_>) -> fmt::Result {
        match self {
            Self::None => f.write_str("None"),
            Self::External(_) => f.write_str("External(..)"),
            Self::Resumption(_) => f.write_str("Resumption(..)"),
        }
    }
}

/// A side of the connection.
#[derive(Clone, Copy, Debug, PartialEq, Eq, Hash)]
#[repr(u8)]
pub enum Side {
    /// The client.
    Client = 1,
    /// The server.
    Server = 2,
}

/// Which traffic secret the keys are of.
#[derive(Clone, Copy, Debug, PartialEq, Eq, Hash)]
#[repr(u8)]
pub enum KeyName {
    /// client_early_traffic_secret, from Early to Complete
    ClientEarly = 1,
    /// client_handshake_traffic_secret, from Handshake to Complete
    ClientHandshake = 2,
    /// server_handshake_traffic_secret, from Handshake to Complete
    ServerHandshake = 3,
    /// client_application_traffic_secret, the one in force, from Application on
    ClientApplication = 4,
    /// server_application_traffic_secret, the one in force, from Application on
    ServerApplication = 5,
}

/// Which exporter secret is exported from.
#[derive(Clone, Copy, Debug, PartialEq, Eq, Hash)]
#[repr(u8)]
pub enum Exporter {
    /// early_exporter_master_secret, from Early to Complete
    Early = 1,
    /// exporter_master_secret, from Application on
    Regular = 2,
}
