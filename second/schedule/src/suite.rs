//! The cipher suites and the key exchange groups, by their numbers.

use crate::sha2::Hash;

/// What the key schedule needs of a cipher suite (RFC 8446, B.4).
#[derive(Clone, Copy, Debug, PartialEq, Eq)]
pub struct Suite {
    pub hash: Hash,
    pub key_length: usize,
    pub iv_length: usize,
}

impl Suite {
    pub fn from_number(number: u16) -> Option<Suite> {
        let (hash, key_length) = match number {
            0x1301 => (Hash::Sha256, 16),
            0x1302 => (Hash::Sha384, 32),
            0x1303 => (Hash::Sha256, 32),
            0x1304 => (Hash::Sha256, 16),
            0x1305 => (Hash::Sha256, 16),
            _ => return None,
        };
        Some(Suite {
            hash,
            key_length,
            iv_length: 12,
        })
    }
}

/// The bytes of a group's shared secret; group 0 stands for no key exchange.
pub fn shared_secret_length(group: u16) -> Option<usize> {
    match group {
        0 => Some(0),
        SECP256R1 => Some(32),
        SECP384R1 => Some(48),
        SECP521R1 => Some(66),
        X25519 => Some(32),
        X448 => Some(56),
        FFDHE2048 => Some(256),
        FFDHE3072 => Some(384),
        FFDHE4096 => Some(512),
        FFDHE6144 => Some(768),
        FFDHE8192 => Some(1024),
        _ => None,
    }
}

/// RFC 8446, 7.4.2: only these two have an all-zero secret refused.
pub fn refuses_all_zero(group: u16) -> bool {
    matches!(group, X25519 | X448)
}

const SECP256R1: u16 = 0x0017;
const SECP384R1: u16 = 0x0018;
const SECP521R1: u16 = 0x0019;
const X25519: u16 = 0x001d;
const X448: u16 = 0x001e;
const FFDHE2048: u16 = 0x0100;
const FFDHE3072: u16 = 0x0101;
const FFDHE4096: u16 = 0x0102;
const FFDHE6144: u16 = 0x0103;
const FFDHE8192: u16 = 0x0104;
