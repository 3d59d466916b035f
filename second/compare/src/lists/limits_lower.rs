//! Limits of the lower calls' long inputs, and which refusal comes first there.

use super::calls;
use crate::bench::Bench;
use crate::call::{self, Call};
use crate::report::Stop;
use crate::suite::{Suite, BOTH_HASHES};

/// The longest hash input, and the longest HMAC message and Extract input.
const HASH_INPUT: usize = 2_097_152;
const HMAC_MESSAGE: usize = 1_048_576;

pub fn run(bench: &mut Bench, _: u64) -> Result<(), Stop> {
    for suite in BOTH_HASHES {
        for size in [HASH_INPUT - 1, HASH_INPUT, HASH_INPUT + 1] {
            hashes(bench, suite, size)?;
        }
        for size in [HMAC_MESSAGE - 1, HMAC_MESSAGE, HMAC_MESSAGE + 1] {
            macs(bench, suite, size)?;
        }
    }
    Ok(())
}

fn each(bench: &mut Bench, name: &str, made: Vec<Call>) -> Result<(), Stop> {
    for (at, call) in made.iter().enumerate() {
        let (mut list, _) = calls(bench, format!("{name}, {at}"));
        list.push(call);
        bench.compare(&list)?;
    }
    Ok(())
}

/// Hash and Derive-Secret over `size` bytes: done, or 9, but 2 and 4 before it, 10 and 11 behind.
fn hashes(bench: &mut Bench, suite: Suite, size: usize) -> Result<(), Stop> {
    let (number, hash) = (suite.number, suite.hash);
    let name = format!("limit of hash input, {number:04x}, {size} bytes");
    let (_, mut rng) = calls(bench, name.clone());
    let (input, secret) = (rng.bytes(size), rng.bytes(hash));
    let made = vec![
        call::hash(number, hash, &input),
        call::hash(number, hash - 1, &input),
        call::hash(0x1306, hash, &input),
        call::derive_secret(number, hash, &secret, b"derived", &input),
        call::derive_secret(number, 0, &secret, b"derived", &input),
        call::derive_secret(number, hash, &secret, &[], &input),
        call::derive_secret(number, hash, &secret[1..], b"derived", &input),
        call::derive_secret(0, hash, &secret, b"derived", &input),
    ];
    each(bench, &name, made)
}

/// HMAC and Extract over `size` bytes likewise.
fn macs(bench: &mut Bench, suite: Suite, size: usize) -> Result<(), Stop> {
    let (number, hash) = (suite.number, suite.hash);
    let name = format!("limit of HMAC message, {number:04x}, {size} bytes");
    let (_, mut rng) = calls(bench, name.clone());
    let (text, key) = (rng.bytes(size), rng.bytes(suite.block + 1));
    let mut made = Vec::new();
    for make in [call::hmac, call::extract] {
        made.push(make(number, hash, &key[1..], &text));
        made.push(make(number, hash, &[], &text));
        made.push(make(number, hash - 1, &key[1..], &text));
        made.push(make(number, hash, &key, &text));
        made.push(make(0x1300, hash, &key, &text));
    }
    each(bench, &name, made)
}
