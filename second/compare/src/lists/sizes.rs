//! Every PSK size, secrets of zeros, transcripts over every position of a hash block, messages of
//! the least and greatest sizes, a HelloRetryRequest.

use super::calls;
use crate::bench::Bench;
use crate::call::{self, message, LONGEST};
use crate::plan::{feed, Plan, Stage, EXTERNAL};
use crate::reads;
use crate::report::Stop;
use crate::suite::{Group, Suite, BOTH_HASHES, GROUPS, SUITES};

pub fn run(bench: &mut Bench, _: u64) -> Result<(), Stop> {
    for suite in BOTH_HASHES {
        for size in 1..=128 {
            psk(bench, suite, size, false)?;
        }
        for size in [1, suite.hash, suite.block, 128] {
            psk(bench, suite, size, true)?;
        }
        for size in [5, 61, 129] {
            positions(bench, suite, size)?;
        }
    }
    for (at, group) in GROUPS[1..].iter().enumerate() {
        zeros(bench, SUITES[at % 5], *group, None)?;
    }
    for group in [GROUPS[4], GROUPS[5]] {
        for place in 0..group.secret {
            zeros(bench, SUITES[place % 5], group, Some(place))?;
        }
    }
    for suite in BOTH_HASHES {
        for size in [4, 5, LONGEST - 1, LONGEST] {
            messages(bench, suite, size)?;
        }
        retried(bench, suite)?;
    }
    Ok(())
}

/// The random of a HelloRetryRequest (RFC 8446, 4.1.3).
const RETRY: [u8; 32] = [
    0xCF, 0x21, 0xAD, 0x74, 0xE5, 0x9A, 0x61, 0x11, 0xBE, 0x1D, 0x8C, 0x02, 0x1E, 0x65, 0xB8, 0x91,
    0xC2, 0xA2, 0x11, 0x16, 0x7A, 0xBB, 0x8C, 0x5E, 0x07, 0x9E, 0x09, 0xE2, 0xC8, 0xA8, 0x33, 0x9C,
];

/// A handshake on an external PSK of `size` bytes, random or zero.
fn psk(bench: &mut Bench, suite: Suite, size: usize, zero: bool) -> Result<(), Stop> {
    let kind = if zero { "zero" } else { "random" };
    let name = format!("PSK {:04x}, {size} {kind} bytes", suite.number);
    let (mut list, mut rng) = calls(bench, name);
    let rng = &mut rng;
    let group = rng.pick(&GROUPS);
    let mut plan = Plan::new(suite, EXTERNAL, true, group, rng);
    plan.psk = if zero { vec![0; size] } else { rng.bytes(size) };
    for step in plan.steps(rng) {
        list.push(&step.call);
        if step.stage <= Stage::Handshake {
            list.extend(&reads::all(suite, rng));
        }
    }
    bench.compare(&list).map(|_| ())
}

/// A shared secret of zeros but for one byte, or of zeros alone.
fn zeros(bench: &mut Bench, suite: Suite, group: Group, place: Option<usize>) -> Result<(), Stop> {
    let byte = place.map_or("none".into(), |place| place.to_string());
    let name = format!("zeros {:04x}, nonzero byte: {byte}", group.number);
    let (mut list, mut rng) = calls(bench, name);
    let rng = &mut rng;
    let kind = rng.below(3) as u8;
    let mut plan = Plan::new(suite, kind, true, group, rng);
    plan.secret = vec![0; group.secret];
    if let Some(place) = place {
        plan.secret[place] = 1 << rng.below(8);
    }
    list.extend(&plan.up_to(Stage::Application, rng));
    list.extend(&reads::all(suite, rng));
    bench.compare(&list).map(|_| ())
}

/// Messages of an odd `size` and of 4 bytes in turn, both flights, so that transcripts end at every
/// position of a block.
fn positions(bench: &mut Bench, suite: Suite, size: usize) -> Result<(), Stop> {
    let name = format!("positions {:04x}, messages of {size} and 4", suite.number);
    let (mut list, mut rng) = calls(bench, name);
    let rng = &mut rng;
    let group = GROUPS[1];
    let plan = Plan::new(suite, EXTERNAL, true, group, rng);
    list.extend(&plan.up_to(Stage::ServerHello, rng));
    list.push(&plan.handshake());
    for (side, kinds) in [(2, [8, 11, 13, 15]), (1, [5, 11, 15, 11])] {
        for round in 0..2 * suite.block + 8 {
            let body = rng.bytes(if round % 2 == 0 { size - 4 } else { 0 });
            list.push(&call::feed(&message(rng.pick(&kinds), &body)));
            list.push(&call::finished(side, suite.hash));
        }
        list.push(&feed(20, rng));
        list.push(&[call::application(), call::complete()][usize::from(side == 1)]);
        list.extend(&reads::all(suite, rng));
    }
    bench.compare(&list).map(|_| ())
}

/// Every message of a handshake of `size` bytes.
fn messages(bench: &mut Bench, suite: Suite, size: usize) -> Result<(), Stop> {
    let name = format!("messages {:04x}, {size} bytes", suite.number);
    let (mut list, mut rng) = calls(bench, name);
    let rng = &mut rng;
    let plan = Plan::new(suite, EXTERNAL, true, GROUPS[4], rng);
    for step in plan.steps(rng) {
        let mut call = step.call;
        if call.kind == call::FEED {
            call = call::feed(&message(call.payload[0], &rng.bytes(size - 4)));
        }
        list.push(&call);
        list.extend(&reads::all(suite, rng));
    }
    bench.compare(&list).map(|_| ())
}

/// A retry is a ServerHello here: nothing is fed behind it, and the transcript is not rebuilt.
fn retried(bench: &mut Bench, suite: Suite) -> Result<(), Stop> {
    let (mut list, mut rng) = calls(bench, format!("retried {:04x}", suite.number));
    let rng = &mut rng;
    let plan = Plan::new(suite, EXTERNAL, false, GROUPS[4], rng);
    let body = [&[3, 3][..], &RETRY, &rng.bytes(20)].concat();
    list.extend(&plan.up_to(Stage::Hello, rng));
    list.push(&call::feed(&message(2, &body)));
    list.extend(&reads::all(suite, rng));
    for call in [feed(1, rng), call::early(), feed(2, rng), plan.handshake()] {
        list.push(&call);
        list.extend(&reads::all(suite, rng));
    }
    bench.compare(&list).map(|_| ())
}
