//! Calls with arguments inside and just outside their ranges, to be tried at every stage.

use crate::call::{self, message, Call, LONGEST};
use crate::plan::{self, Plan, Stage, EXTERNAL, NONE, RESUMPTION};
use crate::rng::Rng;
use crate::suite::{Suite, GROUPS, UNKNOWN_GROUPS, UNKNOWN_SUITES};

/// Sides and names that are none.
const UNKNOWN: [u8; 4] = [0, 3, 128, 255];

/// Session-changing calls that no stage takes: an unknown number, a wrong size, a wrong shape.
pub fn refused(suite: Suite, big: bool, rng: &mut Rng) -> Vec<Call> {
    let mut calls = begins(suite, rng);
    calls.extend(feeds(rng));
    calls.extend(handshakes(rng));
    calls.extend(UNKNOWN.map(call::update));
    if big {
        let body = rng.bytes(LONGEST - 3);
        for kind in [1, 2, 8, 11, 20, 99] {
            calls.push(call::feed(&message(kind, &body)));
        }
        calls.push(call::begin(suite.number, EXTERNAL, &body));
        calls.push(call::handshake(0x001D, &body));
    }
    calls
}

fn begins(suite: Suite, rng: &mut Rng) -> Vec<Call> {
    let (hash, other) = (suite.hash, 80 - suite.hash);
    let mut calls = Vec::new();
    for number in UNKNOWN_SUITES {
        for (kind, size) in [
            (NONE, 0),
            (EXTERNAL, 32),
            (RESUMPTION, hash),
            (9, 0),
            (NONE, 5),
        ] {
            calls.push(call::begin(number, kind, &rng.bytes(size)));
        }
    }
    for kind in [3, 128, 255] {
        for size in [0, 1, hash, 129] {
            calls.push(call::begin(suite.number, kind, &rng.bytes(size)));
        }
    }
    for size in [1, hash, 128] {
        calls.push(call::begin(suite.number, NONE, &rng.bytes(size)));
    }
    for size in [0, 129, 256, 257] {
        calls.push(call::begin(suite.number, EXTERNAL, &rng.bytes(size)));
    }
    for size in [0, 1, hash - 1, hash + 1, other, 128, 256 + hash] {
        calls.push(call::begin(suite.number, RESUMPTION, &rng.bytes(size)));
    }
    calls
}

/// Messages too short, with a length field that is not the body's length, of a type taken nowhere.
fn feeds(rng: &mut Rng) -> Vec<Call> {
    let mut calls = Vec::new();
    for kind in [1, 2, 8, 11, 20, 99] {
        for size in 1..4 {
            calls.push(call::feed(&message(kind, &[])[..size]));
        }
        let body = rng.between(1, 80);
        let whole = message(kind, &rng.bytes(body));
        for (at, change) in [(3, 1), (3, 255), (2, 1), (1, 1), (1, 128)] {
            let mut misfit = whole.clone();
            misfit[at] = misfit[at].wrapping_add(change);
            calls.push(call::feed(&misfit));
        }
        let mut swapped = whole;
        swapped.swap(1, 3);
        calls.push(call::feed(&swapped));
    }
    calls.push(call::feed(&[]));
    for kind in [
        0, 3, 4, 6, 7, 9, 10, 12, 14, 16, 19, 21, 24, 25, 129, 254, 255,
    ] {
        calls.push(call::feed(&message(kind, &rng.bytes(8))));
    }
    calls
}

fn handshakes(rng: &mut Rng) -> Vec<Call> {
    let mut calls = Vec::new();
    for number in UNKNOWN_GROUPS {
        for size in [0, 1, 32] {
            calls.push(call::handshake(number, &rng.bytes(size)));
        }
    }
    for group in GROUPS {
        calls.push(call::handshake(group.number, &rng.bytes(group.secret + 1)));
        if group.secret > 0 {
            calls.push(call::handshake(group.number, &rng.bytes(group.secret - 1)));
            calls.push(call::handshake(group.number, &[]));
        }
    }
    calls.push(call::handshake(0, &rng.bytes(32)));
    for (group, size) in [
        (0x001D, 32),
        (0x001D, 31),
        (0x001D, 33),
        (0x001E, 56),
        (0x001E, 55),
    ] {
        calls.push(call::handshake(group, &vec![0; size]));
    }
    calls
}

/// Well-formed session-changing calls, Close apart, that do not lead on from `stage`.
pub fn misplaced(plan: &Plan, stage: Stage, rng: &mut Rng) -> Vec<Call> {
    let mut calls = vec![plan.begin(), call::early(), plan.handshake()];
    for group in GROUPS {
        calls.push(call::handshake(
            group.number,
            &plan::shared_secret(group, rng),
        ));
    }
    calls.extend([call::application(), call::complete()]);
    calls.extend([call::update(1), call::update(2)]);
    for kind in [1, 2, 5, 8, 11, 13, 15, 20] {
        calls.push(plan::feed(kind, rng));
    }
    calls.retain(|call| !leads_on(plan, stage, call));
    if plan.psk_kind == NONE {
        calls.push(call::handshake(0, &[]));
    }
    calls
}

/// Whether a well-formed call leads from a stage to another.
fn leads_on(plan: &Plan, stage: Stage, call: &Call) -> bool {
    let kind = |kind: u8| call.kind == call::FEED && call.payload[0] == kind;
    match stage {
        Stage::Fresh => call.kind == call::BEGIN,
        Stage::Begun => kind(1),
        Stage::Hello => kind(2) || (call.kind == call::EARLY && plan.psk_kind != NONE),
        Stage::EarlyRun => kind(2),
        Stage::ServerHello => call.kind == call::HANDSHAKE,
        Stage::Handshake | Stage::Application => kind(20),
        Stage::ServerFinished => call.kind == call::APPLICATION,
        Stage::ClientFinished => call.kind == call::COMPLETE,
        Stage::Complete | Stage::Updated | Stage::Closed => false,
    }
}

/// Reading calls with every argument inside and just outside its range.
pub fn readings(suite: Suite, big: bool, rng: &mut Rng) -> Vec<Call> {
    let (hash, keys) = (suite.hash, suite.keys());
    let mut calls = Vec::new();
    for name in [0, 1, 2, 3, 4, 5, 6, 128, 255] {
        for room in [0, keys - 1, keys, keys + 1] {
            calls.push(call::keys(name, room));
        }
    }
    for side in [0, 1, 2, 3, 255] {
        for room in [0, hash - 1, hash, hash + 1] {
            calls.push(call::finished(side, room));
        }
        for size in [0, 1, hash - 1, hash, hash + 1, 256 + hash] {
            calls.push(call::check(side, &rng.bytes(size)));
        }
    }
    calls.extend(binders(suite, rng));
    calls.extend(exports(suite, rng));
    if big {
        calls.extend(big_readings(suite, rng));
    }
    calls
}

fn binders(suite: Suite, rng: &mut Rng) -> Vec<Call> {
    let mut calls = Vec::new();
    for size in [0, 1, 3, 4, 5, 120] {
        for first in [0, 1, 2, 129] {
            for room in [0, suite.hash - 1, suite.hash, suite.hash + 9] {
                let mut hello = rng.bytes(size);
                if let Some(byte) = hello.first_mut() {
                    *byte = first;
                }
                calls.push(call::binder(room, &hello));
            }
        }
    }
    calls
}

/// Export by name with (label size, length, room).
fn exports(suite: Suite, rng: &mut Rng) -> Vec<Call> {
    let (hash, most) = (suite.hash, suite.most());
    let over = 1 << 16;
    let cases = [
        (1, 1, 1),
        (249, hash, hash),
        (0, hash, hash),
        (250, hash, hash),
        (256, hash, hash),
        (506, hash, hash),
        (5, 0, 32),
        (5, 0, 31),
        (5, 0, hash),
        (5, hash, hash - 1),
        (5, most, most),
        (5, most, most - 1),
        (5, most + 1, most + 1),
        (5, most + 1, 0),
        (5, over, over),
        (5, over + 32, 64),
        (5, u32::MAX as usize, 64),
        (0, most + 1, 0),
        (250, 0, 31),
    ];
    let mut calls = Vec::new();
    for name in [0, 1, 2, 3, 255] {
        for (label, length, room) in cases {
            let (label, context) = (rng.bytes(label), rng.bytes(3));
            calls.push(call::export(name, length, room, &label, &context));
        }
    }
    calls
}

/// The longest cut ClientHello and context, and one byte more.
fn big_readings(suite: Suite, rng: &mut Rng) -> Vec<Call> {
    let mut hello = rng.bytes(LONGEST + 1);
    let mut calls = Vec::new();
    for first in [1, 2] {
        hello[0] = first;
        calls.push(call::binder(suite.hash, &hello[..LONGEST]));
        calls.push(call::binder(suite.hash, &hello));
        calls.push(call::binder(0, &hello));
    }
    for name in 0..4 {
        for (label, size, room) in [(4, 0, 32), (4, 1, 32), (0, 1, 32), (4, 1, 31), (4, 0, 31)] {
            let (label, context) = (rng.bytes(label), &hello[..LONGEST + size]);
            calls.push(call::export(name, 0, room, &label, context));
        }
    }
    calls.push(call::check(1, &hello));
    calls.push(call::check(2, &hello));
    calls
}
