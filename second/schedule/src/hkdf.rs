//! HKDF (RFC 5869) and the TLS 1.3 functions on top of it (RFC 8446, 7.1).
//!
//! Sizes are judged by the callers.

use crate::hmac::hmac;
use crate::sha2::Hash;

/// RFC 5869, 2.2.
pub fn extract(hash: Hash, salt: &[u8], input: &[u8]) -> Vec<u8> {
    hmac(hash, salt, input)
}

/// RFC 5869, 2.3: T(i) = HMAC(secret, T(i-1) | info | i), as many blocks as cover the length, the
/// last cut short.
pub fn expand(hash: Hash, secret: &[u8], info: &[u8], length: usize) -> Vec<u8> {
    let blocks = length.div_ceil(hash.length());
    let mut output = vec![0; length];
    let mut previous = Vec::new();
    for (part, counter) in output.chunks_mut(hash.length()).take(blocks).zip(1..=255u8) {
        let message = [&previous[..], info, &[counter]].concat();
        previous = hmac(hash, secret, &message);
        part.copy_from_slice(&previous[..part.len()]);
    }
    output
}

/// RFC 8446, 7.1: the struct HkdfLabel.
pub fn hkdf_label(label: &[u8], context: &[u8], length: usize) -> Vec<u8> {
    let mut bytes = (length as u16).to_be_bytes().to_vec();
    bytes.push(6 + label.len() as u8);
    bytes.extend_from_slice(b"tls13 ");
    bytes.extend_from_slice(label);
    bytes.push(context.len() as u8);
    bytes.extend_from_slice(context);
    bytes
}

/// HKDF-Expand-Label, RFC 8446, 7.1.
pub fn expand_label(
    hash: Hash,
    secret: &[u8],
    label: &[u8],
    context: &[u8],
    length: usize,
) -> Vec<u8> {
    expand(hash, secret, &hkdf_label(label, context, length), length)
}

/// Derive-Secret, RFC 8446, 7.1: the context is the messages' hash, also where there are none.
pub fn derive_secret(hash: Hash, secret: &[u8], label: &[u8], messages: &[u8]) -> Vec<u8> {
    let transcript_hash = hash.digest(messages);
    expand_label(hash, secret, label, &transcript_hash, hash.length())
}
