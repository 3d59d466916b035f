//! Every call at every stage with arguments inside and just outside their ranges; refused calls are
//! followed by reading calls that would show a change, and by the rest of the handshake.

use super::calls;
use crate::bench::Bench;
use crate::call;
use crate::plan::{Plan, Stage, EXTERNAL, NONE, RESUMPTION, STAGES};
use crate::reads;
use crate::report::Stop;
use crate::rng::Rng;
use crate::suite::{Group, Suite, GROUPS, SUITES};
use crate::variants;

pub fn run(bench: &mut Bench, _: u64) -> Result<(), Stop> {
    for (at, suite) in SUITES.into_iter().enumerate() {
        for kind in [NONE, EXTERNAL, RESUMPTION] {
            for (row, stage) in STAGES.into_iter().enumerate() {
                let group = GROUPS[1 + (at + row + usize::from(kind)) % 10];
                let early = stage == Stage::EarlyRun || (at + row) % 2 == 0;
                // Long arguments at each stage once for each hash.
                let big = at < 2 && usize::from(kind) == 1 + row % 2;
                let shape = Shape {
                    suite,
                    kind,
                    early,
                    group,
                };
                tried(bench, &shape, stage, big)?;
                left(bench, &shape, stage)?;
                closed(bench, &shape, stage)?;
            }
        }
    }
    Ok(())
}

/// What a plan is made from.
struct Shape {
    suite: Suite,
    kind: u8,
    early: bool,
    group: Group,
}

impl Shape {
    fn plan(&self, rng: &mut Rng) -> Plan {
        Plan::new(self.suite, self.kind, self.early, self.group, rng)
    }

    fn words(&self) -> String {
        format!("{:04x} PSK kind {}", self.suite.number, self.kind)
    }
}

/// All calls that do not lead on from `stage`, then the rest of the handshake.
fn tried(bench: &mut Bench, shape: &Shape, stage: Stage, big: bool) -> Result<(), Stop> {
    let (mut list, mut rng) = calls(bench, format!("edges {} at {stage:?}", shape.words()));
    let rng = &mut rng;
    let plan = shape.plan(rng);
    let (before, after): (Vec<_>, Vec<_>) =
        (plan.steps(rng).into_iter()).partition(|step| step.stage <= stage);
    for step in &before {
        list.push(&step.call);
    }
    list.extend(&reads::all(plan.suite, rng));
    let mut attempts = variants::refused(plan.suite, big, rng);
    attempts.extend(variants::misplaced(&plan, stage, rng));
    for call in &attempts {
        list.push(call);
        list.push(&reads::one(plan.suite, rng));
    }
    list.extend(&variants::readings(plan.suite, big, rng));
    for step in &after {
        list.push(&step.call);
        list.extend(&reads::all(plan.suite, rng));
    }
    bench.compare(&list).map(|_| ())
}

/// The same calls and nothing behind them: the places that the program prints at the end are those
/// of `stage`.
fn left(bench: &mut Bench, shape: &Shape, stage: Stage) -> Result<(), Stop> {
    let (mut list, mut rng) = calls(bench, format!("left {} at {stage:?}", shape.words()));
    let rng = &mut rng;
    let plan = shape.plan(rng);
    list.extend(&plan.up_to(stage, rng));
    list.extend(&variants::refused(plan.suite, false, rng));
    list.extend(&variants::misplaced(&plan, stage, rng));
    list.extend(&variants::readings(plan.suite, false, rng));
    bench.compare(&list).map(|_| ())
}

/// Close at `stage`, all calls after it, and Close again.
fn closed(bench: &mut Bench, shape: &Shape, stage: Stage) -> Result<(), Stop> {
    let (mut list, mut rng) = calls(bench, format!("close {} at {stage:?}", shape.words()));
    let rng = &mut rng;
    let plan = shape.plan(rng);
    list.extend(&plan.up_to(stage, rng));
    list.push(&call::close());
    list.extend(&reads::all(plan.suite, rng));
    list.extend(&variants::misplaced(&plan, Stage::Closed, rng));
    list.push(&call::close());
    list.extend(&reads::all(plan.suite, rng));
    bench.compare(&list).map(|_| ())
}
