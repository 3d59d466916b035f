//! Journals for the program `replay`.

use super::odd::damage;
use super::{journal, random};
use crate::bench::Bench;
use crate::call::{self, message, Call};
use crate::list::{self, List, Program};
use crate::plan::{Plan, EXTERNAL, NONE, RESUMPTION, STAGES};
use crate::report::Stop;
use crate::rng::Rng;
use crate::suite::{GROUPS, SUITES};
use crate::variants;

/// The longest journal that the program takes.
const LONGEST: usize = 65_536;

/// Random journals, whole and damaged, and journals of random bytes.
const WHOLE: usize = 150;
const DAMAGED: usize = 300;
const NOISE: usize = 60;

pub fn run(bench: &mut Bench, _: u64) -> Result<(), Stop> {
    handshakes(bench)?;
    edges(bench)?;
    damages(bench)?;
    sizes(bench)?;
    for number in 0..WHOLE + DAMAGED {
        let name = format!("replay random {number}");
        let mut rng = Rng::new(bench.seed, &name);
        let mut bytes = list::journal(&journal_calls(random::walk(&mut rng)));
        if number >= WHOLE {
            damage(&mut bytes, &mut rng);
        }
        replay(bench, name, bytes)?;
    }
    for number in 0..NOISE {
        let name = format!("replay random bytes {number}");
        let mut rng = Rng::new(bench.seed, &name);
        let size = rng.between(1, 30);
        replay(bench, name, rng.bytes(size))?;
    }
    Ok(())
}

fn replay(bench: &mut Bench, name: String, bytes: Vec<u8>) -> Result<(), Stop> {
    let list = List::raw(Program::Replay, name, bytes);
    bench.compare(&list).map(|_| ())
}

/// The calls that a journal can hold.
fn journal_calls(mut calls: Vec<Call>) -> Vec<Call> {
    calls.retain(|call| call.kind <= call::CLOSE);
    calls
}

/// Whole handshakes in every suite, group and PSK kind.
fn handshakes(bench: &mut Bench) -> Result<(), Stop> {
    for (at, suite) in SUITES.into_iter().enumerate() {
        for group in GROUPS {
            for kind in [NONE, EXTERNAL, RESUMPTION] {
                let name = format!("replay {at} {:04x} {kind}", group.number);
                let mut rng = Rng::new(bench.seed, &name);
                let early = (at + usize::from(kind)) % 2 == 0;
                let plan = Plan::new(suite, kind, early, group, &mut rng);
                let steps = plan.steps(&mut rng).into_iter();
                let calls: Vec<Call> = steps.map(|step| step.call).collect();
                let name = format!("replay {}", plan.words());
                replay(bench, name, list::journal(&calls))?;
            }
        }
    }
    Ok(())
}

/// Refused and misplaced calls at every stage, then the rest of the handshake.
fn edges(bench: &mut Bench) -> Result<(), Stop> {
    for (at, stage) in STAGES.into_iter().enumerate() {
        for kind in [NONE, EXTERNAL, RESUMPTION] {
            let name = format!("replay edges at {stage:?}, PSK kind {kind}");
            let mut rng = Rng::new(bench.seed, &name);
            let rng = &mut rng;
            let suite = SUITES[(at + usize::from(kind)) % 5];
            let plan = Plan::new(suite, kind, true, GROUPS[1 + at % 10], rng);
            let (before, after): (Vec<_>, Vec<_>) =
                (plan.steps(rng).into_iter()).partition(|step| step.stage <= stage);
            let mut calls: Vec<Call> = before.into_iter().map(|step| step.call).collect();
            calls.extend(variants::refused(suite, false, rng));
            calls.extend(variants::misplaced(&plan, stage, rng));
            calls.extend(after.into_iter().map(|step| step.call));
            replay(bench, name, list::journal(&calls))?;
        }
    }
    Ok(())
}

/// A small journal cut at every offset, and every kind of damage behind it.
fn damages(bench: &mut Bench) -> Result<(), Stop> {
    let mut rng = Rng::new(bench.seed, "replay damages");
    let whole = journal::small(&mut rng);
    for end in 0..=whole.len() {
        replay(bench, format!("replay cut at {end}"), whole[..end].to_vec())?;
    }
    for kind in (0..=12).chain([101, 256, 257, 264, 0x0800, 0xFFFF]) {
        for size in 0..=4 {
            let record = list::record(&call::raw(kind, &rng.bytes(size)));
            let bytes = [&whole[..], &record[..], &whole[..]].concat();
            replay(bench, format!("replay kind {kind}, {size} bytes"), bytes)?;
        }
    }
    for field in [
        8,
        0xFFFF,
        0x1_0000,
        0x8000_0000,
        0xFFFF_FFFA,
        0xFFFF_FFFF_u32,
    ] {
        for kind in [1_u8, 2, 4, 7] {
            let behind = [&field.to_le_bytes()[..], &[kind, 0, 1, 2, 3, 4, 5, 6, 7]].concat();
            let bytes = [&whole[..], &behind[..]].concat();
            replay(
                bench,
                format!("replay length field {field}, kind {kind}"),
                bytes,
            )?;
        }
    }
    let sample = [3, 0, 0, 0, 1, 0, 1, 0x13, 0, 0, 0, 0, 0, 3, 0];
    replay(
        bench,
        "replay sample of document 01".into(),
        sample.to_vec(),
    )
}

/// Journals at and past the greatest length, of one long record and of many short ones.
fn sizes(bench: &mut Bench) -> Result<(), Stop> {
    let mut rng = Rng::new(bench.seed, "replay sizes");
    for size in [
        LONGEST - 1,
        LONGEST,
        LONGEST + 1,
        LONGEST + 5,
        3 * LONGEST,
        3 << 20,
    ] {
        let begin = list::record(&call::begin(0x1302, 0, &[]));
        let body = rng.bytes(size - begin.len() - 6 - 4);
        let hello = list::record(&call::feed(&message(1, &body)));
        replay(
            bench,
            format!("replay one message, {size}"),
            [begin, hello].concat(),
        )?;
        let first = list::record(&call::feed(&rng.bytes((size - 6) % 6)));
        let mut bytes = first;
        while bytes.len() < size {
            bytes.extend_from_slice(&list::record(&call::close()));
        }
        replay(bench, format!("replay closes, {size}"), bytes)?;
    }
    Ok(())
}
