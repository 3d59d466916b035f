//! Values that the calls hand out, wiped when they are dropped.

use crate::{sys, Refusal};
use alloc::boxed::Box;
use core::fmt;
use core::ops::Deref;

/// The bytes of an IV, for every suite.
pub const IV_BYTES: usize = 12;

/// The longest key, and its IV.
const KEYS_BYTES: usize = 32 + IV_BYTES;

/// The longest hash.
const HASH_BYTES: usize = 48;

/// At most `N` bytes. They lie on the heap, since a value that is moved leaves its old bytes
/// behind.
struct Wiped<const N: usize> {
    bytes: Box<[u8; N]>,
    length: usize,
}

impl<const N: usize> Wiped<N> {
    /// Takes the bytes that a call writes, which gives their number.
    fn written(call: impl FnOnce(&mut [u8]) -> Result<usize, Refusal>) -> Result<Self, Refusal> {
        let mut wiped = Self {
            bytes: Box::new([0; N]),
            length: 0,
        };
        wiped.length = call(&mut *wiped.bytes)?;
        Ok(wiped)
    }

    fn as_slice(&self) -> &[u8] {
        &self.bytes[..self.length]
    }
}

impl<const N: usize> Drop for Wiped<N> {
    fn drop(&mut self) {
        sys::wipe(&mut *self.bytes);
    }
}

/// A traffic key and its IV. They are wiped when this is dropped, and `{:?}` does not show them.
pub struct TrafficKeys(Wiped<KEYS_BYTES>);

impl TrafficKeys {
    pub(crate) fn written(
        call: impl FnOnce(&mut [u8]) -> Result<usize, Refusal>,
    ) -> Result<Self, Refusal> {
        Wiped::written(call).map(Self)
    }

    /// The key, 16 or 32 bytes by the suite.
    pub fn key(&self) -> &[u8] {
        self.parts().0
    }

    /// The IV, to be combined with a record's sequence number (RFC 8446, 5.3).
    pub fn iv(&self) -> &[u8; IV_BYTES] {
        self.parts().1
    }

    fn parts(&self) -> (&[u8], &[u8; IV_BYTES]) {
        self.0
            .as_slice()
            .split_last_chunk()
            .expect("an IV lies behind every key")
    }
}

impl fmt::Debug for TrafficKeys {
    fn fmt(&self, f: &mut fmt::Formatter<'_>) -> fmt::Result {
        f.debug_struct("TrafficKeys").finish_non_exhaustive()
    }
}

/// A value as long as the suite's hash: a Finished value, a binder, a digest, a MAC or a secret. It
/// is wiped when this is dropped, and `{:?}` does not show it.
///
/// It has no `==`, which could tell by its time how many bytes agree;
/// [`Session::check`](crate::Session::check) compares Finished values.
pub struct HashValue(Wiped<HASH_BYTES>);

impl HashValue {
    pub(crate) fn written(
        call: impl FnOnce(&mut [u8]) -> Result<usize, Refusal>,
    ) -> Result<Self, Refusal> {
        Wiped::written(call).map(Self)
    }
}

impl Deref for HashValue {
    type Target = [u8];

    fn deref(&self) -> &[u8] {
        self.0.as_slice()
    }
}

impl AsRef<[u8]> for HashValue {
    fn as_ref(&self) -> &[u8] {
        self
    }
}

impl fmt::Debug for HashValue {
    fn fmt(&self, f: &mut fmt::Formatter<'_>) -> fmt::Result {
        f.debug_struct("HashValue").finish_non_exhaustive()
    }
}
