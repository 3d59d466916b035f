//! Damaged and odd inputs to `calls` itself: cut, of unknown kinds, with sizes that do not fit.

use super::{calls, random};
use crate::bench::Bench;
use crate::call::{self, Call, ROOM};
use crate::list::{self, List, Program};
use crate::report::Stop;
use crate::rng::Rng;

/// Lists of random bytes, and random lists with bytes changed.
const NOISE: usize = 60;
const CHANGED: usize = 300;

/// Sizes that point past any payload, also where a sum of 32 bits would wrap.
const PAST: [u32; 5] = [
    0x7FFF_FFFF,
    0x8000_0000,
    0xFFFF_FFF0,
    0xFFFF_FFFA,
    0xFFFF_FFFF,
];

pub fn run(bench: &mut Bench, _: u64) -> Result<(), Stop> {
    let mut rng = Rng::new(bench.seed, "odd");
    let rng = &mut rng;
    let whole = list::journal(&one_of_each(rng));
    for end in 0..=whole.len() {
        raw(bench, format!("odd cut at {end}"), whole[..end].to_vec())?;
    }
    kinds(bench, rng)?;
    payload_sizes(bench)?;
    size_fields(bench, rng)?;
    rooms(bench, rng)?;
    length_fields(bench, &whole)?;
    write_shapes(bench, rng)?;
    for number in 0..NOISE {
        let size = rng.between(1, 40);
        raw(bench, format!("odd random bytes {number}"), rng.bytes(size))?;
    }
    changed(bench)
}

fn raw(bench: &mut Bench, name: String, bytes: Vec<u8>) -> Result<(), Stop> {
    let list = List::raw(Program::Calls, name, bytes);
    bench.compare(&list).map(|_| ())
}

/// One record between two good ones.
fn between(bench: &mut Bench, name: String, call: &Call) -> Result<(), Stop> {
    let (mut list, _) = calls(bench, name);
    list.push(&call::begin(0x1301, 1, &[1, 2, 3]));
    list.push(call);
    list.push(&call::close());
    bench.compare(&list).map(|_| ())
}

/// A small record of every kind.
fn one_of_each(rng: &mut Rng) -> Vec<Call> {
    let mut calls = vec![
        call::begin(0x1301, 1, &rng.bytes(3)),
        call::feed(&call::message(1, &rng.bytes(2))),
        call::early(),
        call::feed(&call::message(2, &[])),
        call::handshake(0, &[]),
        call::application(),
        call::complete(),
        call::update(1),
    ];
    calls.extend(fitted(rng));
    calls.push(call::close());
    calls
}

/// The calls with rooms or sizes, each with all its parts.
fn fitted(rng: &mut Rng) -> Vec<Call> {
    let secret = rng.bytes(32);
    vec![
        call::keys(2, 3),
        call::finished(2, 3),
        call::check(2, &rng.bytes(2)),
        call::binder(3, &rng.bytes(5)),
        call::export(1, 4, 5, &rng.bytes(3), &rng.bytes(2)),
        call::hash(0x1301, 33, &rng.bytes(3)),
        call::hmac(0x1301, 32, &rng.bytes(4), &rng.bytes(3)),
        call::extract(0x1302, 49, &rng.bytes(4), &rng.bytes(3)),
        call::expand(0x1301, 5, 6, &secret, &rng.bytes(3)),
        call::expand_label(0x1303, 5, 6, &secret, (b"key", b"c")),
        call::derive_secret(0x1304, 32, &secret, b"derived", b"m"),
        call::write(&call::update(2), 8),
        call::read(0, &[0, 0, 0, 0, 3, 0]),
    ]
}

fn kinds(bench: &mut Bench, rng: &mut Rng) -> Result<(), Stop> {
    let next_to_known = [0, 9, 10, 99, 100, 106, 107, 200, 207, 300, 303];
    let by_one_byte = [45, 46, 256, 257, 264, 357, 557, 0x0800, 0x6500, 0xFFFF];
    for kind in next_to_known.into_iter().chain(by_one_byte) {
        for size in [0, 5, 30] {
            let call = call::raw(kind, &rng.bytes(size));
            between(bench, format!("odd kind {kind}, {size} bytes"), &call)?;
        }
    }
    Ok(())
}

/// Every kind with payloads from nothing to more than its fixed parts need.
fn payload_sizes(bench: &mut Bench) -> Result<(), Stop> {
    let low = (1..=8).map(|kind| (kind, 5));
    let high = (101..=105).chain(201..=206).chain(301..=302);
    for (kind, most) in low.chain(high.map(|kind| (kind, 20))) {
        for size in 0..=most {
            let call = call::raw(kind, &vec![0; size]);
            between(
                bench,
                format!("odd payload of kind {kind}, {size} zeros"),
                &call,
            )?;
        }
    }
    Ok(())
}

/// Replaces the number at `at` of a call's payload.
fn with_number(call: &Call, at: usize, number: u32) -> Call {
    let mut call = call.clone();
    call.payload[at..at + 4].copy_from_slice(&number.to_le_bytes());
    call
}

/// Sizes inside payloads: all that is left, one more, far more.
fn size_fields(bench: &mut Bench, rng: &mut Rng) -> Result<(), Stop> {
    for call in fitted(rng) {
        let fields: &[usize] = match call.kind {
            call::EXPORT => &[9],
            call::HMAC | call::EXTRACT => &[6],
            call::EXPAND => &[10],
            call::EXPAND_LABEL => &[10, 14 + 32],
            call::DERIVE_SECRET => &[6, 10 + 32],
            _ => &[],
        };
        for &at in fields {
            let left = (call.payload.len() - at - 4) as u32;
            for size in [0, left - 1, left, left + 1, left + 4]
                .into_iter()
                .chain(PAST)
            {
                let name = format!("odd size {size} at {at} of kind {}", call.kind);
                between(bench, name, &with_number(&call, at, size))?;
            }
        }
    }
    Ok(())
}

/// Rooms at their limit, one more, far more.
fn rooms(bench: &mut Bench, rng: &mut Rng) -> Result<(), Stop> {
    for call in fitted(rng) {
        let at = match call.kind {
            call::KEYS | call::FINISHED => 1,
            call::BINDER => 0,
            call::EXPORT => 5,
            call::EXPAND | call::EXPAND_LABEL => 6,
            call::CHECK | call::READ => continue,
            _ => 2,
        };
        let most = ROOM as u32;
        for room in [most - 1, most, most + 1, most + 65_536]
            .into_iter()
            .chain(PAST)
        {
            let name = format!("odd room {room} of kind {}", call.kind);
            between(bench, name, &with_number(&call, at, room))?;
        }
    }
    Ok(())
}

/// The length field of the first and of the last record: past the end, far past it.
fn length_fields(bench: &mut Bench, whole: &[u8]) -> Result<(), Stop> {
    for at in [0, whole.len() - 6] {
        for field in [1, 2, 0xFFFF, 0x0001_0000].into_iter().chain(PAST) {
            let mut bytes = whole.to_vec();
            bytes[at..at + 4].copy_from_slice(&field.to_le_bytes());
            raw(bench, format!("odd length field {field} at {at}"), bytes)?;
        }
    }
    Ok(())
}

/// The journal's writing of unknown kinds and of payloads not of their kind's shape.
fn write_shapes(bench: &mut Bench, rng: &mut Rng) -> Result<(), Stop> {
    for kind in (0..=10).chain([101, 256, 257, 264, 302, 0xFFFF]) {
        for size in 0..=4 {
            let call = call::write(&call::raw(kind, &rng.bytes(size)), 12);
            between(
                bench,
                format!("odd write of kind {kind}, {size} bytes"),
                &call,
            )?;
        }
    }
    Ok(())
}

/// Random lists with bytes changed, cut out or put in.
fn changed(bench: &mut Bench) -> Result<(), Stop> {
    for number in 0..CHANGED {
        let name = format!("odd changed {number}");
        let mut rng = Rng::new(bench.seed, &name);
        let mut bytes = list::journal(&random::walk(&mut rng));
        damage(&mut bytes, &mut rng);
        raw(bench, name, bytes)?;
    }
    Ok(())
}

/// One to three bytes changed, cut out or put in.
pub fn damage(bytes: &mut Vec<u8>, rng: &mut Rng) {
    for _ in 0..rng.between(1, 3) {
        if bytes.is_empty() {
            return;
        }
        let at = rng.below(bytes.len());
        match rng.below(4) {
            0 => bytes[at] = rng.word() as u8,
            1 => bytes[at] ^= 1 << rng.below(8),
            2 => drop(bytes.remove(at)),
            _ => bytes.insert(at, rng.pick(&[0, 1, 2, 255])),
        }
    }
}
