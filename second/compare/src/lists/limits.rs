//! Limits of a session and of the input: exactly, and one past.

use super::calls;
use crate::bench::Bench;
use crate::call::{self, message, Call, LONGEST};
use crate::list::{self, List, Program};
use crate::plan::{Plan, Stage, EXTERNAL, NONE};
use crate::reads;
use crate::report::Stop;
use crate::rng::Rng;
use crate::suite::{Suite, BOTH_HASHES, GROUPS};

/// The most updates of one side.
const UPDATES: usize = 65_535;

/// The longest input of `calls`.
const INPUT: usize = 3_145_728;

pub fn run(bench: &mut Bench, _: u64) -> Result<(), Stop> {
    for suite in BOTH_HASHES {
        fed(bench, suite, "flight", flight)?;
        fed(bench, suite, "server's 20", server_finished)?;
        fed(bench, suite, "client's 20", client_finished)?;
        for first in 1..=2 {
            updates(bench, suite, first)?;
        }
    }
    inputs(bench)
}

/// A message of `size` bytes.
fn sized(kind: u8, size: usize, rng: &mut Rng) -> Call {
    call::feed(&message(kind, &rng.bytes(size - 4)))
}

type Ending = fn(Suite, &mut Rng) -> Vec<Call>;

/// Sixteen messages of the greatest length, 1,048,560 bytes, and `ending` for the 16 bytes left.
fn fed(bench: &mut Bench, suite: Suite, what: &str, ending: Ending) -> Result<(), Stop> {
    let name = format!("limit of fed bytes, {:04x}, {what}", suite.number);
    let (mut list, mut rng) = calls(bench, name);
    let rng = &mut rng;
    let plan = Plan::new(suite, NONE, false, GROUPS[4], rng);
    list.push(&plan.begin());
    list.push(&sized(1, LONGEST, rng));
    list.push(&sized(2, LONGEST, rng));
    list.push(&plan.handshake());
    for _ in 0..14 {
        list.push(&sized(11, LONGEST, rng));
    }
    list.extend(&reads::all(suite, rng));
    for call in ending(suite, rng) {
        list.push(&call);
        list.push(&call::finished(1, suite.hash));
        list.push(&call::finished(2, suite.hash));
    }
    list.extend(&reads::all(suite, rng));
    bench.compare(&list).map(|_| ())
}

/// The limit reached before the server's 20: the session is stuck.
fn flight(_: Suite, rng: &mut Rng) -> Vec<Call> {
    vec![
        sized(15, 17, rng),
        sized(15, LONGEST, rng),
        sized(15, 16, rng),
        sized(8, 4, rng),
        sized(20, 4, rng),
        sized(1, 4, rng),
        sized(99, LONGEST, rng),
        call::feed(&[8, 0, 0, 1]),
        call::feed(&[8, 0, 0]),
        call::application(),
    ]
}

/// The limit reached with the server's 20.
fn server_finished(_: Suite, rng: &mut Rng) -> Vec<Call> {
    vec![
        sized(20, 17, rng),
        sized(20, 16, rng),
        sized(20, 4, rng),
        call::application(),
        sized(5, 4, rng),
        sized(20, 4, rng),
        sized(4, 4, rng),
        call::complete(),
    ]
}

/// The limit reached with the client's 20.
fn client_finished(suite: Suite, rng: &mut Rng) -> Vec<Call> {
    let mut calls = vec![
        sized(20, 4, rng),
        call::application(),
        sized(11, 13, rng),
        sized(15, 8, rng),
        sized(20, 5, rng),
        sized(5, 5, rng),
        sized(20, 4, rng),
        sized(5, 4, rng),
        call::complete(),
        call::update(1),
    ];
    calls.extend(reads::all(suite, rng));
    calls
}

/// All updates of one side, one more, then the other side's likewise.
fn updates(bench: &mut Bench, suite: Suite, first: u8) -> Result<(), Stop> {
    let name = format!("limit of updates, {:04x}, side {first} first", suite.number);
    let (mut list, mut rng) = calls(bench, name);
    let rng = &mut rng;
    let plan = Plan::new(suite, EXTERNAL, true, GROUPS[1], rng);
    list.extend(&plan.up_to(Stage::Complete, rng));
    for side in [first, 3 - first] {
        for _ in 1..UPDATES {
            list.push(&call::update(side));
        }
        list.extend(&reads::all(suite, rng));
        for last in [side, side, side, 0, 3] {
            list.push(&call::update(last));
            list.extend(&reads::all(suite, rng));
        }
    }
    list.push(&call::update(first));
    list.push(&call::close());
    list.push(&call::update(first));
    bench.compare(&list).map(|_| ())
}

/// Inputs of the greatest length and of one byte more.
fn inputs(bench: &mut Bench) -> Result<(), Stop> {
    let close = list::record(&call::close());
    let feed = list::record(&call::feed(&vec![1; INPUT - 6]));
    let hash = list::record(&call::hash(0x1301, 32, &vec![1; INPUT - 12]));
    for (what, whole) in [
        ("closes", close.repeat(INPUT / 6)),
        ("one message", feed),
        ("one hash", hash),
    ] {
        for more in 0..=1 {
            let name = format!("limit of the input, {what}, {more} more");
            let bytes = [&whole[..], &vec![0; more][..]].concat();
            bench.compare(&List::raw(Program::Calls, name, bytes))?;
        }
    }
    Ok(())
}
