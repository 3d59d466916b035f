//! What a call leaves on the stack below it: zeros, and what was there before. The stack is read as
//! a file, Linux's /proc/self/mem.

// Without optimization the clearing itself leaves return addresses behind.
#![cfg(not(debug_assertions))]

mod steps;

use bindcricket::journal::{self, Record};
use bindcricket::{
    derive_secret_into, expand, expand_label, extract_into, hash_into, hmac_into, Exporter, Group,
    KeyName, Refusal, Session, Side, Suite, STACK_BYTES,
};
use std::fs::File;
use std::hint::black_box;
use std::os::unix::fs::FileExt;
use steps::{message, reach, step, At, EXTERNAL};

/// The bytes that are looked at below a call.
const DEPTH: usize = 2 * STACK_BYTES;
/// What stands in them before the call.
const PAINT: u8 = 0xa5;
/// The frames of the wrapper above the library's, and the return address of the function that
/// clears the stack.
const TOP: usize = 256;
/// Lies above the call's frames, so that reading the stack does not write over them.
const GAP: usize = 16 * 1024;

/// Fills the stack below the caller.
#[inline(never)]
fn paint() {
    black_box(&mut [PAINT; DEPTH]);
}

/// Makes a call on a painted stack and gives the address that its frames lie below.
#[inline(never)]
fn painted(call: &mut dyn FnMut()) -> usize {
    let gap = [0u8; GAP];
    let top = black_box(&gap).as_ptr() as usize;
    paint();
    call();
    top
}

/// The number of bytes on the stack that are neither zero nor paint after a call.
fn left_by(mut call: impl FnMut()) -> usize {
    let memory = File::open("/proc/self/mem").expect("the memory as a file");
    let mut bytes = vec![0; DEPTH - TOP];
    let lowest = painted(&mut call) - DEPTH;
    memory
        .read_exact_at(&mut bytes, lowest as u64)
        .expect("the stack");
    let left = |byte: &&u8| **byte != 0 && **byte != PAINT;
    bytes.iter().filter(left).count()
}

/// Makes a call that has to be taken and to leave nothing.
fn clean(name: &str, suite: Suite, mut call: impl FnMut() -> Result<(), Refusal>) {
    let mut answer = Err(Refusal::DamagedRecord);
    let left = left_by(|| answer = call());
    assert_eq!((answer, left), (Ok(()), 0), "{name}, {suite:?}");
}

#[test]
fn changing_calls() {
    for suite in Suite::ALL {
        let hello = message(1, 200);
        let secret = [7; 32];
        let mut session = Session::new();
        clean("begin", suite, || session.begin(suite, EXTERNAL));
        clean("feed", suite, || session.feed(&hello));
        clean("early", suite, || session.early());
        step(&mut session, At::ServerHello, suite, EXTERNAL).expect("a step");
        clean("handshake", suite, || {
            session.handshake(Group::X25519, &secret)
        });
        step(&mut session, At::ServerFinished, suite, EXTERNAL).expect("a step");
        clean("application", suite, || session.application());
        step(&mut session, At::ClientFinished, suite, EXTERNAL).expect("a step");
        clean("complete", suite, || session.complete());
        clean("update", suite, || session.update(Side::Server));
        clean("close", suite, || {
            session.close();
            Ok(())
        });
    }
}

#[test]
fn reading_calls() {
    for suite in Suite::ALL {
        let mut out = [0; 200];
        let hello = message(1, 200);
        let session = reach(At::Early, suite, EXTERNAL);
        clean("binder", suite, || {
            session.binder_into(&hello, &mut out).map(drop)
        });
        clean("export", suite, || {
            session.export(Exporter::Early, b"label", b"context", &mut out)
        });
        let session = reach(At::Handshake, suite, EXTERNAL);
        let name = KeyName::ClientHandshake;
        clean("keys", suite, || {
            session.keys_into(name, &mut out).map(drop)
        });
        clean("finished", suite, || {
            session.finished_into(Side::Server, &mut out).map(drop)
        });
        clean("check", suite, || {
            session
                .check(Side::Server, &out[..suite.hash_length()])
                .map(drop)
        });
    }
}

#[test]
fn functions() {
    for suite in Suite::ALL {
        let (mut out, input) = ([0; 200], [7; 300]);
        let secret = &input[..suite.hash_length()];
        clean("hash", suite, || {
            hash_into(suite, &input, &mut out).map(drop)
        });
        clean("hmac", suite, || {
            hmac_into(suite, secret, &input, &mut out).map(drop)
        });
        clean("extract", suite, || {
            extract_into(suite, secret, &input, &mut out).map(drop)
        });
        clean("expand", suite, || expand(suite, secret, &input, &mut out));
        clean("expand_label", suite, || {
            expand_label(suite, secret, b"label", b"context", &mut out)
        });
        clean("derive_secret", suite, || {
            derive_secret_into(suite, secret, b"label", &input, &mut out).map(drop)
        });
    }
}

/// The journal's two functions use less stack than `TOP`, so this cannot tell whether that is
/// cleared. It would see a copy of the body, were one made on the stack and left there.
#[test]
fn journal_calls() {
    for suite in Suite::ALL {
        let (mut out, bytes) = ([0; 400], [7; 300]);
        for record in [
            Record::Begin {
                suite: suite.number(),
                kind: 1,
                psk: &bytes,
            },
            Record::Handshake {
                group: Group::X25519.number(),
                secret: &bytes,
            },
        ] {
            clean("journal write", suite, || record.write(&mut out).map(drop));
            clean("journal read", suite, || {
                Ok(journal::read(&out, 0).map(drop)?)
            });
        }
    }
}

/// Bytes that a function leaves are seen, from right below the top to where the cleared bytes end.
#[test]
fn control() {
    #[inline(never)]
    fn leave() {
        black_box(&mut [7u8; STACK_BYTES]);
    }
    assert!(left_by(leave) >= STACK_BYTES - TOP);
}
