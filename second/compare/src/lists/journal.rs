//! The journal's writer and reader through `calls`.

use super::calls;
use crate::bench::Bench;
use crate::call::{self, Call, LONGEST, ROOM};
use crate::list;
use crate::plan::{Plan, EXTERNAL, RESUMPTION};
use crate::report::Stop;
use crate::rng::Rng;
use crate::suite::{GROUPS, SUITES};

/// Random readings of one list, and their lists.
const READINGS: usize = 150;
const RANDOM: u64 = 40;

pub fn run(bench: &mut Bench, _: u64) -> Result<(), Stop> {
    written(bench)?;
    for size in [LONGEST - 1, LONGEST, LONGEST + 1, LONGEST + 4] {
        longest(bench, size)?;
    }
    every_place(bench)?;
    long_records(bench)?;
    for number in 0..RANDOM {
        let (mut list, mut rng) = calls(bench, format!("journal random {number}"));
        let whole = small(&mut rng);
        for _ in 0..READINGS {
            list.push(&random_reading(&whole, &mut rng));
        }
        bench.compare(&list)?;
    }
    Ok(())
}

/// One call of every journal kind, short.
fn one_of_each(rng: &mut Rng) -> Vec<Call> {
    vec![
        call::begin(0x1301, 0, &[]),
        call::begin(rng.word() as u16, rng.word() as u8, &rng.bytes(5)),
        call::feed(&[]),
        call::feed(&rng.bytes(7)),
        call::early(),
        call::handshake(0, &[]),
        call::handshake(rng.word() as u16, &rng.bytes(6)),
        call::application(),
        call::complete(),
        call::update(rng.word() as u8),
        call::close(),
    ]
}

/// A small journal that holds every kind.
pub fn small(rng: &mut Rng) -> Vec<u8> {
    list::journal(&one_of_each(rng))
}

/// Every kind into rooms exact, one short, empty and larger.
fn written(bench: &mut Bench) -> Result<(), Stop> {
    let (mut list, mut rng) = calls(bench, "journal written".into());
    let rng = &mut rng;
    let mut writes = one_of_each(rng);
    for (kind, suite) in [(EXTERNAL, SUITES[0]), (RESUMPTION, SUITES[1])] {
        let plan = Plan::new(suite, kind, true, GROUPS[10], rng);
        writes.extend(plan.steps(rng).into_iter().map(|step| step.call));
    }
    for call in &writes {
        let exact = 6 + call.payload.len();
        for room in [0, 5, 6, exact - 1, exact, exact + 1, exact + 40] {
            list.push(&call::write(call, room));
        }
    }
    bench.compare(&list).map(|_| ())
}

/// Payloads of `size` bytes: written into rooms exact and one short, and read back.
fn longest(bench: &mut Bench, size: usize) -> Result<(), Stop> {
    let (mut list, mut rng) = calls(bench, format!("journal payload of {size}"));
    let bytes = rng.bytes(size);
    for kind in [call::BEGIN, call::FEED, call::HANDSHAKE] {
        let call = call::raw(kind, &bytes);
        for room in [0, size + 5, size + 6, ROOM] {
            list.push(&call::write(&call, room));
        }
        list.push(&call::read(0, &list::record(&call)));
    }
    bench.compare(&list).map(|_| ())
}

/// Reading at every place of a small journal, behind its end, and far behind it.
fn every_place(bench: &mut Bench) -> Result<(), Stop> {
    let (mut list, mut rng) = calls(bench, "journal read at every place".into());
    let whole = small(&mut rng);
    for end in [whole.len(), whole.len() - 1, 7, 6, 5, 1, 0] {
        let far = [
            1 << 31,
            1 << 32,
            (1 << 32) + 6,
            1 << 63,
            u64::MAX - 5,
            u64::MAX,
        ];
        for place in (0..=end as u64 + 8).chain(far) {
            list.push(&call::read(place, &whole[..end]));
        }
    }
    bench.compare(&list).map(|_| ())
}

/// Length fields at their limits, with and without the bytes behind them; shapes of every kind.
fn long_records(bench: &mut Bench) -> Result<(), Stop> {
    let (mut list, mut rng) = calls(bench, "journal length fields and shapes".into());
    let rng = &mut rng;
    let fields = [
        0xFFFF,
        0x1_0000,
        0x7FFF_FFFF,
        0x8000_0000,
        0xFFFF_FFF9,
        0xFFFF_FFFA,
    ];
    for field in fields
        .into_iter()
        .chain([0xFFFF_FFFF_u32, 0x0100_0000, 0x0001_0003])
    {
        for kind in [1_u16, 2, 4, 7, 9] {
            let mut bytes = field.to_le_bytes().to_vec();
            bytes.extend_from_slice(&kind.to_le_bytes());
            bytes.extend_from_slice(&rng.bytes(4));
            list.push(&call::read(0, &bytes));
        }
    }
    for kind in (0..=12).chain([101, 255, 256, 257, 258, 264, 0x0800, 0xFFFF]) {
        for size in 0..=5 {
            let record = list::record(&call::raw(kind, &rng.bytes(size)));
            list.push(&call::read(0, &record));
            list.push(&call::read(0, &record[..record.len() - 1]));
            list.push(&call::read(0, &[&record[..], &[9]].concat()));
        }
    }
    bench.compare(&list).map(|_| ())
}

/// The offsets at which the records of a journal start, and its end.
fn starts(journal: &[u8]) -> Vec<usize> {
    let mut starts = vec![0];
    for call in list::records(journal) {
        starts.push(starts[starts.len() - 1] + list::record(&call).len());
    }
    starts
}

/// A reading of a journal with some bytes changed or cut off, where a record starts or anywhere.
fn random_reading(whole: &[u8], rng: &mut Rng) -> Call {
    let mut bytes = whole.to_vec();
    for _ in 0..rng.below(4) {
        let at = rng.below(bytes.len());
        bytes[at] = rng.pick(&[0, 1, 2, 3, 4, 5, 6, 7, 8, 9, 255]);
    }
    if rng.chance(30) {
        bytes.truncate(rng.below(whole.len() + 1));
    }
    let place = if rng.chance(60) {
        rng.pick(&starts(whole))
    } else {
        rng.below(bytes.len() + 3)
    };
    call::read(place as u64, &bytes)
}
