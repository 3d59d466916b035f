//! The lists, in parts; each part makes its lists one by one and hands them to the bench.

mod edges;
mod journal;
mod limits;
mod limits_lower;
mod lower;
mod odd;
mod random;
mod replay;
mod sizes;
mod whole;

use crate::bench::Bench;
use crate::list::{List, Program};
use crate::report::Stop;
use crate::rng::Rng;

/// A part: its name and the function that runs its lists; the number is that of `--lists`.
pub struct Part {
    pub name: &'static str,
    pub run: fn(&mut Bench, u64) -> Result<(), Stop>,
}

const fn part(name: &'static str, run: fn(&mut Bench, u64) -> Result<(), Stop>) -> Part {
    Part { name, run }
}

/// All parts, those that depend little on the seed last.
pub static PARTS: [Part; 10] = [
    part("whole", whole::run),
    part("edges", edges::run),
    part("sizes", sizes::run),
    part("lower", lower::run),
    part("journal", journal::run),
    part("odd", odd::run),
    part("replay", replay::run),
    part("random", random::run),
    part("limits", limits::run),
    part("lower limits", limits_lower::run),
];

/// The parts worth running again with another seed.
pub fn seeded() -> &'static [Part] {
    &PARTS[..8]
}

/// An empty list for `calls`, and its random numbers.
fn calls(bench: &Bench, name: String) -> (List, Rng) {
    let rng = Rng::new(bench.seed, &name);
    (List::new(Program::Calls, name), rng)
}
