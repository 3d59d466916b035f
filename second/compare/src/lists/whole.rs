//! Whole handshakes in every suite, group and PSK kind, every reading call at every stage.

use crate::bench::Bench;
use crate::call::{self, Call};
use crate::list::{self, List, Program};
use crate::plan::{Plan, EXTERNAL, NONE, RESUMPTION};
use crate::reads;
use crate::report::Stop;
use crate::rng::Rng;
use crate::suite::{GROUPS, SUITES};

pub fn run(bench: &mut Bench, _: u64) -> Result<(), Stop> {
    for suite in SUITES {
        for group in GROUPS {
            for kind in [NONE, EXTERNAL, RESUMPTION] {
                for early in [false, true] {
                    if kind == NONE && (early || group.number == 0) {
                        continue;
                    }
                    let name = format!("{:04x} {:04x} {kind} {early}", suite.number, group.number);
                    let mut rng = Rng::new(bench.seed, &name);
                    handshake(
                        bench,
                        &Plan::new(suite, kind, early, group, &mut rng),
                        &mut rng,
                    )?;
                }
            }
        }
    }
    Ok(())
}

/// The handshake with all reading calls, then again with the Finished values it printed in Check.
fn handshake(bench: &mut Bench, plan: &Plan, rng: &mut Rng) -> Result<(), Stop> {
    let name = format!("whole {}", plan.words());
    let mut list = List::new(Program::Calls, name);
    list.extend(&reads::all(plan.suite, rng));
    for step in plan.steps(rng) {
        list.push(&step.call);
        list.extend(&reads::all(plan.suite, rng));
    }
    let lines = bench.compare(&list)?;
    bench.compare(&checked(&list, &lines, rng)).map(|_| ())
}

/// The list with Checks behind each accepted Finished: its own value, and values next to it. It
/// stops before Close, so that the places printed at the end are those of a whole handshake.
fn checked(list: &List, lines: &[String], rng: &mut Rng) -> List {
    let mut checked = List::new(Program::Calls, format!("{}, checked", list.name));
    for (call, line) in list::records(&list.bytes).iter().zip(lines) {
        if call.kind == call::CLOSE {
            break;
        }
        checked.push(call);
        if let Some(value) = finished(call, line) {
            let side = call.payload[0];
            checked.push_yes(&call::check(side, &value));
            checked.extend(&near(side, &value, rng));
            checked.push_yes(&call::check(side, &value));
        }
    }
    checked
}

/// Values that are not the Finished value: other side, cut, longer, empty, a bit off anywhere.
fn near(side: u8, value: &[u8], rng: &mut Rng) -> Vec<Call> {
    let longer = [value, &[0]].concat();
    let mut calls = vec![
        call::check(3 - side, value),
        call::check(side, &value[..value.len() - 1]),
        call::check(side, &value[1..]),
        call::check(side, &longer),
        call::check(side, &[]),
        call::check(0, value),
    ];
    for at in [0, rng.below(value.len()), value.len() - 1] {
        let mut off = value.to_vec();
        off[at] ^= 1 << rng.below(8);
        calls.push(call::check(side, &off));
    }
    calls
}

/// The value that an accepted Finished wrote: as many bytes as it reports.
fn finished(call: &Call, line: &str) -> Option<Vec<u8>> {
    let words: Vec<&str> = line.split(' ').collect();
    if call.kind != call::FINISHED || words.len() != 5 || words[2] != "0" {
        return None;
    }
    let count: usize = words[3].parse().ok()?;
    let byte = |at| u8::from_str_radix(words[4].get(at..at + 2)?, 16).ok();
    (0..count).map(|index| byte(2 * index)).collect()
}
