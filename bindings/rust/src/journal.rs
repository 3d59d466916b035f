//! The journal: the calls of a session as bytes, to be kept, read back and made again.
//!
//! A journal is records behind each other. [`Record::write`] makes one, [`records`] reads them all,
//! and [`read`] reads the one at a place. Suites, PSK kinds, groups and sides are numbers here: any
//! call can be written, whether or not a session would take it.
//!
//! ```
//! use bindcricket::journal::{self, Record};
//! use bindcricket::{Refusal, Suite};
//!
//! # fn main() -> Result<(), Refusal> {
//! let mut journal = Vec::new();
//! let mut out = [0; 100];
//! let suite = Suite::Aes128GcmSha256.number();
//! for record in [Record::Begin { suite, kind: 0, psk: &[] }, Record::Early] {
//!     journal.extend_from_slice(record.write(&mut out)?);
//! }
//! assert_eq!(journal, [3, 0, 0, 0, 1, 0, 0x01, 0x13, 0, 0, 0, 0, 0, 3, 0]);
//!
//! for record in journal::records(&journal) {
//!     match record? {
//!         Record::Begin { suite, .. } => assert_eq!(Suite::try_from(suite)?.key_length(), 16),
//!         other => println!("{other:?}"),
//!     }
//! }
//! # Ok(())
//! # }
//! ```
//!
//! A journal holds PSKs and shared secrets. It lies in buffers of the caller's, which the caller has
//! to wipe; `{:?}` shows none of its bytes.

use crate::{sys, Refusal};
use core::error::Error;
use core::fmt;
use core::iter::FusedIterator;

/// The most bytes that a record has: a buffer of this size is enough for any.
pub const RECORD_BYTES: usize = 6 + 65_535;

/// A call, with its arguments as the journal has them.
#[derive(Clone, Copy)]
pub enum Record<'a> {
    /// Begin.
    Begin {
        /// The number of the suite.
        suite: u16,
        /// The kind of the PSK: 0 none, 1 external, 2 resumption.
        kind: u8,
        /// The PSK.
        psk: &'a [u8],
    },
    /// Feed, with its message.
    Feed(&'a [u8]),
    /// Early.
    Early,
    /// Handshake.
    Handshake {
        /// The number of the group, 0 for none.
        group: u16,
        /// The shared secret.
        secret: &'a [u8],
    },
    /// Application.
    Application,
    /// Complete.
    Complete,
    /// Update.
    Update {
        /// The side: 1 client, 2 server.
        side: u8,
    },
    /// Close.
    Close,
}

impl<'a> Record<'a> {
    /// Writes the record into a buffer: gives its written front.
    ///
    /// A record has 6 bytes and its payload: the PSK and 3 bytes of a Begin, the message of a Feed,
    /// the shared secret and 2 bytes of a Handshake, 1 byte of an Update. Refused with
    /// [`OutOfRange`](Refusal::OutOfRange) for a payload over 65,535 bytes, and with
    /// [`OutputTooShort`](Refusal::OutputTooShort).
    pub fn write<'b>(&self, out: &'b mut [u8]) -> Result<&'b mut [u8], Refusal> {
        let (kind, number, small, body) = self.parts();
        let written = sys::journal_write(kind, number, small, body, out)?;
        Ok(&mut out[..written])
    }

    /// Its kind, and the numbers and bytes that the writer takes: 0 and none where it has none.
    fn parts(&self) -> (u16, u16, u8, &'a [u8]) {
        match *self {
            Self::Begin { suite, kind, psk } => (1, suite, kind, psk),
            Self::Feed(message) => (2, 0, 0, message),
            Self::Early => (3, 0, 0, &[]),
            Self::Handshake { group, secret } => (4, group, 0, secret),
            Self::Application => (5, 0, 0, &[]),
            Self::Complete => (6, 0, 0, &[]),
            Self::Update { side } => (7, 0, side, &[]),
            Self::Close => (8, 0, 0, &[]),
        }
    }

    /// The record of a kind and a payload, if that kind has such a payload.
    fn of(kind: u16, payload: &'a [u8]) -> Option<Self> {
        match (kind, payload) {
            (1, [low, high, kind, psk @ ..]) => Some(Self::Begin {
                suite: u16::from_le_bytes([*low, *high]),
                kind: *kind,
                psk,
            }),
            (2, message) => Some(Self::Feed(message)),
            (3, []) => Some(Self::Early),
            (4, [low, high, secret @ ..]) => Some(Self::Handshake {
                group: u16::from_le_bytes([*low, *high]),
                secret,
            }),
            (5, []) => Some(Self::Application),
            (6, []) => Some(Self::Complete),
            (7, [side]) => Some(Self::Update { side: *side }),
            (8, []) => Some(Self::Close),
            _ => None,
        }
    }
}

/// Shows the numbers, and not the PSK, the message or the shared secret.
impl fmt::Debug for Record<'_> {
    fn fmt(&self, f: &mut fmt::Formatter<'_>) -> fmt::Result {
        match self {
            Self::Begin { suite, kind, .. } => f
                .debug_struct("Begin")
                .field("suite", suite)
                .field("kind", kind)
                .finish_non_exhaustive(),
            Self::Feed(_) => f.write_str("Feed(..)"),
            Self::Early => f.write_str("Early"),
            Self::Handshake { group, .. } => f
                .debug_struct("Handshake")
                .field("group", group)
                .finish_non_exhaustive(),
            Self::Application => f.write_str("Application"),
            Self::Complete => f.write_str("Complete"),
            Self::Update { side } => f.debug_struct("Update").field("side", side).finish(),
            Self::Close => f.write_str("Close"),
        }
    }
}

/// No good record stands at a place: the bytes there are too few for one, of an unknown kind, or
/// have a length that is over 65,535, past the end of the journal or not one of the kind's.
#[derive(Clone, Copy, Debug, PartialEq, Eq, Hash)]
pub struct Damaged {
    /// The offset in the journal of the record's first byte.
    pub place: usize,
}

impl fmt::Display for Damaged {
    fn fmt(&self, f: &mut fmt::Formatter<'_>) -> fmt::Result {
        write!(f, "at byte {}: {}", self.place, Refusal::from(*self))
    }
}

impl Error for Damaged {}

impl From<Damaged> for Refusal {
    fn from(_: Damaged) -> Self {
        Self::DamagedRecord
    }
}

/// Reads the record at a place of a journal: gives it, and the place of the next. At the end of the
/// journal and behind it there is none. A place inside a record is read like any other.
pub fn read(journal: &[u8], place: usize) -> Result<Option<(Record<'_>, usize)>, Damaged> {
    let damaged = Damaged { place };
    match sys::journal_read(journal, place).map_err(|_| damaged)? {
        (0, ..) => Ok(None),
        (kind, payload, next) => {
            let record = Record::of(kind, payload).ok_or(damaged)?;
            Ok(Some((record, next)))
        }
    }
}

/// Reads a journal from its front. What is behind a damaged record is not read.
pub fn records(journal: &[u8]) -> Records<'_> {
    Records { journal, place: 0 }
}

/// The records of a journal, up to its end or the first damaged one; [`records`] makes it.
#[derive(Clone)]
pub struct Records<'a> {
    journal: &'a [u8],
    place: usize,
}

impl<'a> Iterator for Records<'a> {
    type Item = Result<Record<'a>, Damaged>;

    fn next(&mut self) -> Option<Self::Item> {
        match read(self.journal, self.place) {
            Ok(None) => None,
            Ok(Some((record, next))) => {
                self.place = next;
                Some(Ok(record))
            }
            Err(damaged) => {
                self.place = self.journal.len();
                Some(Err(damaged))
            }
        }
    }
}

impl FusedIterator for Records<'_> {}

/// Shows no byte of the journal.
impl fmt::Debug for Records<'_> {
    fn fmt(&self, f: &mut fmt::Formatter<'_>) -> fmt::Result {
        f.debug_struct("Records")
            .field("place", &self.place)
            .finish_non_exhaustive()
    }
}
