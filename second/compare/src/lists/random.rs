//! Random lists: a handshake's calls among reading calls and calls of every other sort.

use super::{calls, journal, lower};
use crate::bench::Bench;
use crate::call::{self, Call};
use crate::plan::{Plan, Stage, Step, EXTERNAL, NONE};
use crate::reads;
use crate::report::Stop;
use crate::rng::Rng;
use crate::suite::{GROUPS, SUITES};
use crate::variants;

pub fn run(bench: &mut Bench, lists: u64) -> Result<(), Stop> {
    for number in 0..lists {
        let (mut list, mut rng) = calls(bench, format!("random {number}"));
        for call in walk(&mut rng) {
            list.push(&call);
        }
        bench.compare(&list)?;
    }
    Ok(())
}

/// A random plan; without a shared secret only with a PSK, mostly.
pub fn plan(rng: &mut Rng) -> Plan {
    let suite = rng.pick(&SUITES);
    let kind = rng.below(3) as u8;
    let group = rng.pick(&GROUPS);
    let kind = if kind == NONE && group.number == 0 && rng.chance(90) {
        EXTERNAL
    } else {
        kind
    };
    Plan::new(suite, kind, rng.chance(60), group, rng)
}

/// 20 to 200 calls: the plan's next call often enough to get through it about once.
pub fn walk(rng: &mut Rng) -> Vec<Call> {
    let plan = plan(rng);
    let mut steps = plan.steps(rng).into_iter();
    let strays = strays(&plan, rng);
    let length = rng.between(20, 200);
    let progress = (2400 / length).clamp(10, 70);
    let mut calls = Vec::new();
    while calls.len() < length {
        if rng.chance(progress) {
            calls.push(next(&mut steps, rng));
        } else if rng.chance(55) {
            calls.push(reads::one(plan.suite, rng));
        } else {
            calls.push(stray(&strays, rng));
        }
    }
    calls
}

/// The plan's next call; Close seldom, updates in its place.
fn next(steps: &mut std::vec::IntoIter<Step>, rng: &mut Rng) -> Call {
    match steps.next() {
        Some(step) if step.stage != Stage::Closed => step.call,
        _ if rng.chance(10) => call::close(),
        _ => call::update(rng.between(1, 2) as u8),
    }
}

/// Session calls that mostly do not lead on.
fn strays(plan: &Plan, rng: &mut Rng) -> Vec<Call> {
    let stage = rng.pick(&crate::plan::STAGES);
    let mut calls = variants::refused(plan.suite, false, rng);
    calls.extend(variants::misplaced(plan, stage, rng));
    calls.extend(variants::readings(plan.suite, false, rng));
    calls
}

/// Any call: a session's, with arguments at their edges or changed at random, or a lower one.
fn stray(strays: &[Call], rng: &mut Rng) -> Call {
    match rng.below(20) {
        0 | 1 => lower::random(rng),
        2 => {
            let bytes = journal::small(rng);
            call::read(rng.below(bytes.len() + 1) as u64, &bytes)
        }
        3 => {
            let call = call::feed(&rng.bytes(9));
            call::write(&call, rng.between(10, 20))
        }
        4..=6 => changed(rng.pick(strays), rng),
        _ => rng.pick(strays),
    }
}

/// A changing call with one byte of its payload changed: a number, a length field, a body.
fn changed(mut call: Call, rng: &mut Rng) -> Call {
    if call.kind < 100 && !call.payload.is_empty() {
        let at = rng.below(call.payload.len().min(8));
        call.payload[at] ^= 1 << rng.below(8);
    }
    call
}
