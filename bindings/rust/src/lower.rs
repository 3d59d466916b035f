//! The functions below the session.

use crate::{sys, HashValue, Refusal, Suite};

/// The suite's hash of at most 2,097,152 bytes; more are refused with
/// [`InputTooLong`](Refusal::InputTooLong).
pub fn hash(suite: Suite, input: &[u8]) -> Result<HashValue, Refusal> {
    HashValue::written(|out| sys::hash(suite.number(), input, out))
}

/// [`hash`] into a buffer: gives its written front. Refused with
/// [`OutputTooShort`](Refusal::OutputTooShort) too.
pub fn hash_into<'a>(
    suite: Suite,
    input: &[u8],
    out: &'a mut [u8],
) -> Result<&'a mut [u8], Refusal> {
    let written = sys::hash(suite.number(), input, out)?;
    Ok(&mut out[..written])
}

/// HMAC (RFC 2104). A key over one block (64 bytes, 128 for SHA-384) is refused with
/// [`SecretSize`](Refusal::SecretSize), a message over 1,048,576 bytes with
/// [`InputTooLong`](Refusal::InputTooLong).
pub fn hmac(suite: Suite, key: &[u8], message: &[u8]) -> Result<HashValue, Refusal> {
    HashValue::written(|out| sys::hmac(suite.number(), key, message, out))
}

/// [`hmac`] into a buffer: gives its written front. Refused with
/// [`OutputTooShort`](Refusal::OutputTooShort) too.
pub fn hmac_into<'a>(
    suite: Suite,
    key: &[u8],
    message: &[u8],
    out: &'a mut [u8],
) -> Result<&'a mut [u8], Refusal> {
    let written = sys::hmac(suite.number(), key, message, out)?;
    Ok(&mut out[..written])
}

/// HKDF-Extract (RFC 5869). A salt over one block is refused with
/// [`SecretSize`](Refusal::SecretSize), an input over 1,048,576 bytes with
/// [`InputTooLong`](Refusal::InputTooLong).
pub fn extract(suite: Suite, salt: &[u8], input: &[u8]) -> Result<HashValue, Refusal> {
    HashValue::written(|out| sys::extract(suite.number(), salt, input, out))
}

/// [`extract`] into a buffer: gives its written front. Refused with
/// [`OutputTooShort`](Refusal::OutputTooShort) too.
pub fn extract_into<'a>(
    suite: Suite,
    salt: &[u8],
    input: &[u8],
    out: &'a mut [u8],
) -> Result<&'a mut [u8], Refusal> {
    let written = sys::extract(suite.number(), salt, input, out)?;
    Ok(&mut out[..written])
}

/// Fills `out` by HKDF-Expand (RFC 5869).
///
/// A secret that is shorter than the hash or over one block is refused with
/// [`SecretSize`](Refusal::SecretSize); an info over 1,024 bytes, and an `out` that is empty or
/// over 255 times the hash, with [`OutOfRange`](Refusal::OutOfRange).
pub fn expand(suite: Suite, secret: &[u8], info: &[u8], out: &mut [u8]) -> Result<(), Refusal> {
    sys::expand(suite.number(), secret, info, out.len(), out)?;
    Ok(())
}

/// Fills `out` by HKDF-Expand-Label (RFC 8446, 7.1).
///
/// A secret that is not as long as the hash is refused with [`SecretSize`](Refusal::SecretSize); a
/// label that is not 1 to 249 bytes, a context over 255, and an `out` that is empty or over 255
/// times the hash, with [`OutOfRange`](Refusal::OutOfRange).
pub fn expand_label(
    suite: Suite,
    secret: &[u8],
    label: &[u8],
    context: &[u8],
    out: &mut [u8],
) -> Result<(), Refusal> {
    sys::expand_label(suite.number(), secret, label, context, out.len(), out)?;
    Ok(())
}

/// Derive-Secret (RFC 8446, 7.1) over the messages themselves, not over their hash.
///
/// A secret that is not as long as the hash is refused with [`SecretSize`](Refusal::SecretSize),
/// messages over 2,097,152 bytes with [`InputTooLong`](Refusal::InputTooLong), a label that is not
/// 1 to 249 bytes with [`OutOfRange`](Refusal::OutOfRange).
pub fn derive_secret(
    suite: Suite,
    secret: &[u8],
    label: &[u8],
    messages: &[u8],
) -> Result<HashValue, Refusal> {
    HashValue::written(|out| sys::derive_secret(suite.number(), secret, label, messages, out))
}

/// [`derive_secret`] into a buffer: gives its written front. Refused with
/// [`OutputTooShort`](Refusal::OutputTooShort) too.
pub fn derive_secret_into<'a>(
    suite: Suite,
    secret: &[u8],
    label: &[u8],
    messages: &[u8],
    out: &'a mut [u8],
) -> Result<&'a mut [u8], Refusal> {
    let written = sys::derive_secret(suite.number(), secret, label, messages, out)?;
    Ok(&mut out[..written])
}
