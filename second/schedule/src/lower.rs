//! The lower calls: hash, HMAC, HKDF and its TLS 1.3 functions under the limits of the product.
//!
//! Each names a suite by its number, judged first: 2 is the lowest number that these calls give.

use crate::hkdf;
use crate::hmac;
use crate::refusal::{lowest, Answer, Refusal};
use crate::sha2::Hash;
use crate::suite::Suite;

pub const HASH_INPUT_LIMIT: usize = 2_097_152;
pub const HMAC_MESSAGE_LIMIT: usize = 1_048_576;
pub const INFO_LIMIT: usize = 1_024;
pub const LABEL_LIMIT: usize = 249;
pub const CONTEXT_LIMIT: usize = 255;

pub fn hash(suite: u16, input: &[u8], output: &mut [u8]) -> Answer {
    let hash = known(suite)?.hash;
    lowest([
        (Refusal::OverLimit, input.len() > HASH_INPUT_LIMIT),
        (Refusal::OutputTooShort, output.len() < hash.length()),
    ])?;
    Ok(write_front(output, &hash.digest(input)))
}

/// HMAC, and Extract: its salt is the key, its input the message.
fn judge_mac(hash: Hash, key: &[u8], message: &[u8], output: &[u8]) -> Result<(), Refusal> {
    lowest([
        (Refusal::WrongSize, key.len() > hash.block()),
        (Refusal::OverLimit, message.len() > HMAC_MESSAGE_LIMIT),
        (Refusal::OutputTooShort, output.len() < hash.length()),
    ])
}

pub fn hmac(suite: u16, key: &[u8], message: &[u8], output: &mut [u8]) -> Answer {
    let hash = known(suite)?.hash;
    judge_mac(hash, key, message, output)?;
    Ok(write_front(output, &hmac::hmac(hash, key, message)))
}

pub fn extract(suite: u16, salt: &[u8], input: &[u8], output: &mut [u8]) -> Answer {
    let hash = known(suite)?.hash;
    judge_mac(hash, salt, input, output)?;
    Ok(write_front(output, &hkdf::extract(hash, salt, input)))
}

pub fn expand(suite: u16, secret: &[u8], info: &[u8], length: usize, output: &mut [u8]) -> Answer {
    let hash = known(suite)?.hash;
    let sizes = hash.length()..=hash.block();
    let lengths = 1..=largest_expansion(hash.length());
    let in_range = info.len() <= INFO_LIMIT && lengths.contains(&length);
    lowest([
        (Refusal::WrongSize, !sizes.contains(&secret.len())),
        (Refusal::OutOfRange, !in_range),
        (Refusal::OutputTooShort, output.len() < length),
    ])?;
    let bytes = hkdf::expand(hash, secret, info, length);
    Ok(write_front(output, &bytes))
}

pub fn expand_label(
    suite: u16,
    secret: &[u8],
    label: &[u8],
    context: &[u8],
    length: usize,
    output: &mut [u8],
) -> Answer {
    let hash = known(suite)?.hash;
    let lengths = 1..=largest_expansion(hash.length());
    let in_range = label_fits(label) && context.len() <= CONTEXT_LIMIT && lengths.contains(&length);
    lowest([
        (Refusal::WrongSize, secret.len() != hash.length()),
        (Refusal::OutOfRange, !in_range),
        (Refusal::OutputTooShort, output.len() < length),
    ])?;
    let bytes = hkdf::expand_label(hash, secret, label, context, length);
    Ok(write_front(output, &bytes))
}

pub fn derive_secret(
    suite: u16,
    secret: &[u8],
    label: &[u8],
    messages: &[u8],
    output: &mut [u8],
) -> Answer {
    let hash = known(suite)?.hash;
    lowest([
        (Refusal::WrongSize, secret.len() != hash.length()),
        (Refusal::OverLimit, messages.len() > HASH_INPUT_LIMIT),
        (Refusal::OutOfRange, !label_fits(label)),
        (Refusal::OutputTooShort, output.len() < hash.length()),
    ])?;
    let bytes = hkdf::derive_secret(hash, secret, label, messages);
    Ok(write_front(output, &bytes))
}

/// RFC 5869, 2.3: the block counter is one byte.
pub fn largest_expansion(hash_length: usize) -> usize {
    255 * hash_length
}

/// HkdfLabel holds 255 bytes, six of them "tls13 ".
pub fn label_fits(label: &[u8]) -> bool {
    (1..=LABEL_LIMIT).contains(&label.len())
}

/// Leaves the lent bytes behind the written ones as they are.
pub fn write_front(output: &mut [u8], bytes: &[u8]) -> usize {
    output[..bytes.len()].copy_from_slice(bytes);
    bytes.len()
}

fn known(suite: u16) -> Result<Suite, Refusal> {
    Suite::from_number(suite).ok_or(Refusal::Unknown)
}
