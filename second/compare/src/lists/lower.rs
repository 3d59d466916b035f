//! The lower calls: every small size, every pair of refusals that can meet, random arguments.

use super::calls;
use crate::bench::Bench;
use crate::call::{self, Call};
use crate::reads;
use crate::report::Stop;
use crate::rng::Rng;
use crate::suite::{Suite, SUITES, UNKNOWN_SUITES};

/// Random lists of this part, and the calls of each.
const MIXED: u64 = 60;
const MIXED_CALLS: usize = 150;

pub fn run(bench: &mut Bench, _: u64) -> Result<(), Stop> {
    for suite in SUITES {
        sweep(bench, suite, "hash", hashes)?;
        sweep(bench, suite, "HMAC and Extract", macs)?;
        sweep(bench, suite, "Expand", expands)?;
        sweep(bench, suite, "Expand-Label", expand_labels)?;
        sweep(bench, suite, "Derive-Secret", derive_secrets)?;
        sweep(bench, suite, "refusals", refusals)?;
    }
    for number in 0..MIXED {
        let (mut list, mut rng) = calls(bench, format!("lower random {number}"));
        for _ in 0..MIXED_CALLS {
            list.push(&random(&mut rng));
        }
        bench.compare(&list)?;
    }
    Ok(())
}

type Maker = fn(Suite, &mut Rng) -> Vec<Call>;

fn sweep(bench: &mut Bench, suite: Suite, what: &str, make: Maker) -> Result<(), Stop> {
    let (mut list, mut rng) = calls(bench, format!("lower {:04x} {what}", suite.number));
    list.extend(&make(suite, &mut rng));
    bench.compare(&list).map(|_| ())
}

fn hashes(suite: Suite, rng: &mut Rng) -> Vec<Call> {
    let (number, hash) = (suite.number, suite.hash);
    let mut calls = Vec::new();
    for size in 0..=2 * suite.block + 20 {
        calls.push(call::hash(
            number,
            hash + reads::spare(rng),
            &rng.bytes(size),
        ));
    }
    for blocks in 3..=8 {
        for (more, less) in [(0, 18), (0, 17), (0, 9), (0, 8), (0, 1), (0, 0), (1, 0)] {
            let input = rng.bytes(blocks * suite.block + more - less);
            calls.push(call::hash(number, hash, &input));
        }
    }
    for byte in [0, 0x80, 0xFF] {
        calls.push(call::hash(number, hash, &vec![byte; suite.block]));
    }
    calls
}

fn macs(suite: Suite, rng: &mut Rng) -> Vec<Call> {
    let (number, hash) = (suite.number, suite.hash);
    let mut calls = Vec::new();
    for make in [call::hmac, call::extract] {
        for size in 0..=suite.block + 3 {
            let (key, text) = (rng.bytes(size), rng.below(200));
            calls.push(make(number, hash, &key, &rng.bytes(text)));
        }
        for size in 0..=suite.block + 20 {
            let key = rng.below(suite.block + 1);
            let (key, text) = (rng.bytes(key), rng.bytes(size));
            calls.push(make(number, hash + reads::spare(rng), &key, &text));
        }
        calls.push(make(number, hash, &rng.bytes(131), &[]));
        calls.push(make(number, hash, &[0; 64], &[0; 32]));
    }
    calls
}

fn expands(suite: Suite, rng: &mut Rng) -> Vec<Call> {
    let (number, hash, most) = (suite.number, suite.hash, suite.most());
    let mut calls = Vec::new();
    for length in (0..=3 * hash + 1).chain([most - 1, most, most + 1, 65_536 + 32]) {
        let room = length + reads::spare(rng);
        let (secret, info) = (rng.bytes(hash), rng.below(60));
        calls.push(call::expand(
            number,
            length,
            room,
            &secret,
            &rng.bytes(info),
        ));
    }
    for size in (0..3).chain(hash - 1..=suite.block + 2) {
        calls.push(call::expand(
            number,
            2 * hash,
            2 * hash,
            &rng.bytes(size),
            &[7],
        ));
    }
    for size in (0..140).chain([255, 256, 1023, 1024, 1025, 2048]) {
        let (secret, info) = (rng.bytes(hash), rng.bytes(size));
        calls.push(call::expand(number, hash + 1, hash + 1, &secret, &info));
    }
    calls
}

fn expand_labels(suite: Suite, rng: &mut Rng) -> Vec<Call> {
    let (number, hash, most) = (suite.number, suite.hash, suite.most());
    let mut calls = Vec::new();
    let mut call = |length, secret: usize, label, context, rng: &mut Rng| {
        let room = length + reads::spare(rng);
        let secret = rng.bytes(secret);
        let (label, context) = (rng.bytes(label), rng.bytes(context));
        let texts = (label.as_slice(), context.as_slice());
        calls.push(call::expand_label(number, length, room, &secret, texts));
    };
    for label in (0..=251).chain([256, 257, 506]) {
        call(hash, hash, label, 0, rng);
    }
    for context in (0..=257).chain([512, 65_536]) {
        call(12, hash, 3, context, rng);
    }
    for length in (0..=2 * hash + 1).chain([most - 1, most, most + 1, 65_536 + 16]) {
        call(length, hash, 6, 5, rng);
    }
    for secret in [0, 1, hash - 1, hash, hash + 1, 80 - hash, suite.block] {
        call(hash, secret, 4, 4, rng);
    }
    call(most, hash, 249, 255, rng);
    calls
}

fn derive_secrets(suite: Suite, rng: &mut Rng) -> Vec<Call> {
    let (number, hash) = (suite.number, suite.hash);
    let mut calls = Vec::new();
    let mut call = |secret, label, messages, rng: &mut Rng| {
        let room = hash + reads::spare(rng);
        let secret = rng.bytes(secret);
        let (label, messages) = (rng.bytes(label), rng.bytes(messages));
        calls.push(call::derive_secret(
            number, room, &secret, &label, &messages,
        ));
    };
    for messages in 0..=suite.block + 10 {
        call(hash, 7, messages, rng);
    }
    for label in [0, 1, 2, 12, 248, 249, 250, 251, 256, 506] {
        call(hash, label, 0, rng);
        call(hash, label, 40, rng);
    }
    for secret in [0, 1, hash - 1, hash + 1, 80 - hash, suite.block] {
        call(secret, 7, 5, rng);
    }
    calls
}

/// Every meeting of refusals: each bit of `wrong` puts one argument outside its range.
fn refusals(suite: Suite, rng: &mut Rng) -> Vec<Call> {
    let mut calls = Vec::new();
    for wrong in 0..64 {
        let bad = |bit: u32| wrong >> bit & 1 == 1;
        let size = |bit, good, wrong| if bad(bit) { wrong } else { good };
        let number = size(0, usize::from(suite.number), 0x1306) as u16;
        let secret = rng.bytes(size(1, suite.hash, suite.hash - 1));
        let key = rng.bytes(size(1, suite.block, suite.block + 1));
        let (label, context) = (rng.bytes(size(2, 249, 250)), rng.bytes(size(3, 255, 256)));
        let info = rng.bytes(size(3, 1024, 1025));
        let length = size(4, suite.hash + 1, 0);
        let room = size(5, suite.hash + 1, 0);
        let (short, texts) = (
            size(5, suite.hash, suite.hash - 1),
            (&label[..], &context[..]),
        );
        calls.push(call::hash(number, short, &context));
        calls.push(call::hmac(number, short, &key, &label));
        calls.push(call::extract(number, short, &key, &label));
        calls.push(call::expand(number, length, room, &secret, &info));
        calls.push(call::expand_label(number, length, room, &secret, texts));
        calls.push(call::derive_secret(
            number, short, &secret, &label, &context,
        ));
    }
    calls
}

/// A size from `low` to `high` or, now and then, one of `odd`.
fn size(rng: &mut Rng, low: usize, high: usize, odd: &[usize]) -> usize {
    if rng.chance(8) {
        rng.pick(odd)
    } else {
        rng.between(low, high)
    }
}

/// Random bytes of such a size.
fn text(rng: &mut Rng, low: usize, high: usize, odd: &[usize]) -> Vec<u8> {
    let size = size(rng, low, high, odd);
    rng.bytes(size)
}

/// One lower call with arguments mostly inside their ranges.
pub fn random(rng: &mut Rng) -> Call {
    let suite = rng.pick(&SUITES);
    let (hash, block, most) = (suite.hash, suite.block, suite.most());
    let number = if rng.chance(4) {
        rng.pick(&UNKNOWN_SUITES)
    } else {
        suite.number
    };
    let room = size(rng, hash, hash + 20, &[0, hash - 1, hash]);
    let key = text(rng, 0, block, &[block + 1, block + 50]);
    let secret = text(rng, hash, hash, &[0, hash - 1, hash + 1, block]);
    let input = text(rng, 0, 400, &[1024, 1025, 3000]);
    let label = text(rng, 1, 30, &[0, 249, 250]);
    let context = text(rng, 0, 64, &[255, 256, 300]);
    let length = size(
        rng,
        1,
        5 * hash,
        &[0, most, most + 1, 1 << 16, u32::MAX as usize],
    );
    let lent = length.min(most + 1);
    let long = size(rng, lent, lent + 20, &[0, lent, lent.max(1) - 1]);
    match rng.below(6) {
        0 => call::hash(number, room, &input),
        1 => call::hmac(number, room, &key, &input),
        2 => call::extract(number, room, &key, &input),
        3 => call::expand(number, length, long, &secret, &input),
        4 => call::expand_label(number, length, long, &secret, (&label, &context)),
        _ => call::derive_secret(number, room, &secret, &label, &input),
    }
}
