//! The calls that only read a session, well-formed: Keys, Finished, Check, Binder, Export.

use crate::call::{self, Call};
use crate::rng::Rng;
use crate::suite::Suite;

/// How many calls `numbered` knows.
const COUNT: usize = 18;

/// Every reading call with room enough, a little more now and then.
pub fn all(suite: Suite, rng: &mut Rng) -> Vec<Call> {
    (0..COUNT)
        .map(|number| numbered(number, suite, rng))
        .collect()
}

/// One reading call.
pub fn one(suite: Suite, rng: &mut Rng) -> Call {
    let number = rng.below(COUNT);
    numbered(number, suite, rng)
}

fn numbered(number: usize, suite: Suite, rng: &mut Rng) -> Call {
    let near = [suite.hash - 1, suite.hash, suite.hash + 1, 2 * suite.hash];
    let side = 1 + (number % 2) as u8;
    match number {
        0..=4 => call::keys(1 + number as u8, suite.keys() + spare(rng)),
        5 | 6 => call::finished(side, suite.hash + spare(rng)),
        7 | 8 => {
            let length = rng.pick(&[0, 1, near[0], near[1], near[2], 300]);
            call::check(side, &rng.bytes(length))
        }
        9 => call::binder(suite.hash + spare(rng), &cut_hello(rng)),
        10 | 11 => export(side, 0, rng),
        12 | 13 => export(side, rng.pick(&near), rng),
        14 | 15 => export(side, rng.between(1, 400), rng),
        _ if rng.chance(20) => export(side, suite.most(), rng),
        _ => export(side, 1, rng),
    }
}

/// Export into room enough; length 0 asks for 32 bytes.
fn export(name: u8, length: usize, rng: &mut Rng) -> Call {
    let room = if length == 0 { 32 } else { length } + spare(rng);
    let (label, context) = (label(rng), context(rng));
    call::export(name, length, room, &label, &context)
}

/// Room beyond what is asked: none, or a few bytes that have to stay.
pub fn spare(rng: &mut Rng) -> usize {
    if rng.chance(75) {
        0
    } else {
        rng.between(1, 70)
    }
}

/// A label of 1 to 249 bytes, mostly short.
pub fn label(rng: &mut Rng) -> Vec<u8> {
    let length = match rng.below(10) {
        0 => 249,
        1 => rng.between(1, 249),
        _ => rng.between(1, 24),
    };
    rng.bytes(length)
}

/// A context for Export.
fn context(rng: &mut Rng) -> Vec<u8> {
    let length = match rng.below(10) {
        0..=2 => 0,
        3 => rng.between(256, 2000),
        _ => rng.below(140),
    };
    rng.bytes(length)
}

/// A cut ClientHello: first byte 1, its length field anything.
pub fn cut_hello(rng: &mut Rng) -> Vec<u8> {
    let length = rng.between(4, 300);
    let mut hello = rng.bytes(length);
    hello[0] = 1;
    hello
}
