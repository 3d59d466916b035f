//! Sizes of suites and groups (document 01, "Suites and groups"), for inputs that aim well.

/// A cipher suite: its number, H, its hash's block and its key's length, in bytes.
#[derive(Clone, Copy)]
pub struct Suite {
    pub number: u16,
    pub hash: usize,
    pub block: usize,
    pub key: usize,
}

/// The IV's length in every suite.
pub const IV: usize = 12;

const fn suite(number: u16, hash: usize, block: usize, key: usize) -> Suite {
    Suite {
        number,
        hash,
        block,
        key,
    }
}

pub const SUITES: [Suite; 5] = [
    suite(0x1301, 32, 64, 16),
    suite(0x1302, 48, 128, 32),
    suite(0x1303, 32, 64, 32),
    suite(0x1304, 32, 64, 16),
    suite(0x1305, 32, 64, 16),
];

/// One suite of each hash.
pub const BOTH_HASHES: [Suite; 2] = [SUITES[0], SUITES[1]];

/// Numbers that are no suite: next to the range, zero, bytes swapped.
pub const UNKNOWN_SUITES: [u16; 6] = [0, 0x1300, 0x1306, 0x0113, 0x0213, 0xFFFF];

impl Suite {
    /// Bytes that Keys writes.
    pub fn keys(self) -> usize {
        self.key + IV
    }

    /// The greatest length of an expansion.
    pub fn most(self) -> usize {
        255 * self.hash
    }
}

/// A group and the bytes of its shared secret.
#[derive(Clone, Copy)]
pub struct Group {
    pub number: u16,
    pub secret: usize,
}

const fn group(number: u16, secret: usize) -> Group {
    Group { number, secret }
}

/// Group 0, no shared secret, stands first.
pub const GROUPS: [Group; 11] = [
    group(0, 0),
    group(0x0017, 32),
    group(0x0018, 48),
    group(0x0019, 66),
    group(0x001D, 32),
    group(0x001E, 56),
    group(0x0100, 256),
    group(0x0101, 384),
    group(0x0102, 512),
    group(0x0103, 768),
    group(0x0104, 1024),
];

/// Numbers that are no group.
pub const UNKNOWN_GROUPS: [u16; 10] = [
    1, 0x0016, 0x001A, 0x001C, 0x001F, 0x00FF, 0x0105, 0x1700, 0x1D00, 0xFFFF,
];
