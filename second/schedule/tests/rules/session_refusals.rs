//! Each session call's number in every state, and which number comes first where several apply.
//!
//! The states are: Fresh, begun, ClientHello fed, Early ran, ServerHello fed, Handshake, server's
//! Finished fed, Application, client's Finished fed, Complete, Closed.

use crate::states::{message, numbers, with_psk, without_psk, State, SUITE, X25519};
use schedule::book::Point;
use schedule::refusal::{number, Refusal};
use schedule::session::Session;

#[test]
fn begin() {
    let at_fresh = |answer| [answer, 1, 1, 1, 1, 1, 1, 1, 1, 1, 1];
    for (suite, kind, psk, answer) in [
        (SUITE, 0, 0, 0),
        (SUITE, 0, 1, 4),
        (SUITE, 1, 0, 4),
        (SUITE, 1, 1, 0),
        (SUITE, 1, 128, 0),
        (SUITE, 1, 129, 4),
        (SUITE, 2, 31, 4),
        (SUITE, 2, 32, 0),
        (SUITE, 2, 48, 4),
        (0x1302, 2, 48, 0),
        (0x1302, 2, 32, 4),
        (SUITE, 3, 0, 2),
        (SUITE, 3, 500, 2),
        (0x1300, 0, 0, 2),
        (0x1306, 0, 9, 2),
        (0x0113, 2, 9, 2),
    ] {
        let psk = vec![1; psk];
        let given = numbers(with_psk, |s| s.begin(suite, kind, &psk));
        assert_eq!(given, at_fresh(answer), "{suite:x} {kind} {}", psk.len());
    }
}

#[test]
fn feed_by_type() {
    let fed = |kind| numbers(with_psk, |s| s.feed(&message(kind, 5)));
    assert_eq!(fed(1), [1, 0, 8, 8, 1, 8, 1, 8, 1, 1, 1]);
    assert_eq!(fed(2), [1, 8, 0, 0, 1, 8, 1, 8, 1, 1, 1]);
    for kind in [8, 13] {
        assert_eq!(fed(kind), [1, 8, 8, 8, 1, 0, 1, 8, 1, 1, 1]);
    }
    for kind in [11, 15, 20] {
        assert_eq!(fed(kind), [1, 8, 8, 8, 1, 0, 1, 0, 1, 1, 1]);
    }
    assert_eq!(fed(5), [1, 8, 8, 8, 1, 8, 1, 0, 1, 1, 1]);
    for kind in [0, 3, 4, 24, 25, 254, 255] {
        assert_eq!(fed(kind), [1, 8, 8, 8, 1, 8, 1, 8, 1, 1, 1]);
    }
}

/// Malformed messages are 7 before their type is looked at, and 1 where nothing is taken.
#[test]
fn feed_malformed() {
    let mut long = message(1, 65_532);
    let mut too_much = message(1, 5);
    too_much.push(0);
    let little_endian = [1, 5, 0, 0, 0, 0, 0, 0, 0].to_vec();
    for bytes in [
        vec![],
        vec![1],
        vec![1, 0, 0],
        vec![9, 0, 0, 1],
        too_much,
        little_endian,
    ] {
        let given = numbers(with_psk, |s| s.feed(&bytes));
        assert_eq!(given, [1, 7, 7, 7, 1, 7, 1, 7, 1, 1, 1], "{bytes:?}");
    }
    assert_eq!(
        with_psk(State::Begun).feed(&long),
        Err(Refusal::MessageLength)
    );
    long[0] = 3;
    assert_eq!(
        with_psk(State::Begun).feed(&long),
        Err(Refusal::MessageLength)
    );
    assert_eq!(with_psk(State::Begun).feed(&message(1, 65_531)), Ok(0));
}

#[test]
fn early() {
    let given = numbers(with_psk, Session::early);
    assert_eq!(given, [1, 1, 0, 1, 1, 1, 1, 1, 1, 1, 1]);
    let given = numbers(without_psk, Session::early);
    assert_eq!(given, [1, 1, 3, 3, 1, 1, 1, 1, 1, 1, 1]);
}

#[test]
fn handshake() {
    let after_server_hello = |answer| [1, 1, 1, 1, answer, 1, 1, 1, 1, 1, 1];
    for (group, secret, with, without) in [
        (X25519, vec![1; 32], 0, 0),
        (X25519, vec![0; 32], 5, 5),
        (X25519, vec![0; 31], 4, 4),
        (X25519, vec![], 4, 4),
        (0x001e, vec![0; 56], 5, 5),
        (0x001e, vec![0; 32], 4, 4),
        (0x0017, vec![0; 32], 0, 0),
        (0x0018, vec![0; 48], 0, 0),
        (0x0019, vec![0; 66], 0, 0),
        (0x0100, vec![0; 256], 0, 0),
        (0x0101, vec![0; 384], 0, 0),
        (0x0102, vec![0; 512], 0, 0),
        (0x0103, vec![0; 768], 0, 0),
        (0x0104, vec![0; 1024], 0, 0),
        (0x0105, vec![0; 32], 2, 2),
        (0x1d00, vec![0; 32], 2, 2),
        (0, vec![], 0, 6),
        (0, vec![0], 4, 4),
    ] {
        let given = numbers(with_psk, |s| s.handshake(group, &secret));
        assert_eq!(
            given,
            after_server_hello(with),
            "{group:x} {}",
            secret.len()
        );
        let given = numbers(without_psk, |s| s.handshake(group, &secret));
        assert_eq!(
            given,
            after_server_hello(without),
            "{group:x} {}",
            secret.len()
        );
    }
}

#[test]
fn later_points_and_close() {
    let given = numbers(with_psk, Session::application);
    assert_eq!(given, [1, 1, 1, 1, 1, 1, 0, 1, 1, 1, 1]);
    let given = numbers(with_psk, Session::complete);
    assert_eq!(given, [1, 1, 1, 1, 1, 1, 1, 1, 0, 1, 1]);
    assert_eq!(numbers(with_psk, Session::close), [0; 11]);
    for side in [1, 2] {
        let given = numbers(with_psk, |s| s.update(side));
        assert_eq!(given, [1, 1, 1, 1, 1, 1, 1, 1, 1, 0, 1]);
    }
    for side in [0, 3, 7] {
        let given = numbers(with_psk, |s| s.update(side));
        assert_eq!(given, [1, 1, 1, 1, 1, 1, 1, 1, 1, 2, 1]);
    }
}

#[test]
fn keys() {
    let asked = |name, room| numbers(with_psk, |s| s.keys(name, &mut vec![0; room]));
    assert_eq!(asked(1, 28), [1, 3, 3, 0, 0, 0, 0, 0, 0, 3, 1]);
    assert_eq!(asked(1, 27), [1, 3, 3, 11, 11, 11, 11, 11, 11, 3, 1]);
    for name in [2, 3] {
        assert_eq!(asked(name, 28), [1, 3, 3, 3, 3, 0, 0, 0, 0, 3, 1]);
    }
    for name in [4, 5] {
        assert_eq!(asked(name, 28), [1, 3, 3, 3, 3, 3, 3, 0, 0, 0, 1]);
    }
    for name in [0, 6, 9] {
        assert_eq!(asked(name, 0), [1, 2, 2, 2, 2, 2, 2, 2, 2, 2, 1]);
    }
    let given = numbers(without_psk, |s| s.keys(1, &mut [0; 28]));
    assert_eq!(given, [1, 3, 3, 3, 3, 3, 3, 3, 3, 3, 1]);
}

/// An unknown side is 2 in every state; a known one is out of its point before the room counts.
#[test]
fn finished_and_check() {
    let asked = |side, room| numbers(with_psk, |s| s.finished(side, &mut vec![0; room]));
    assert_eq!(asked(1, 32), [1, 1, 1, 1, 1, 1, 1, 0, 1, 1, 1]);
    assert_eq!(asked(1, 31), [1, 1, 1, 1, 1, 1, 1, 11, 1, 1, 1]);
    assert_eq!(asked(2, 32), [1, 1, 1, 1, 1, 0, 1, 1, 1, 1, 1]);
    assert_eq!(asked(2, 0), [1, 1, 1, 1, 1, 11, 1, 1, 1, 1, 1]);
    for side in [0, 3, 255] {
        assert_eq!(asked(side, 0), [2; 11]);
        assert_eq!(numbers(with_psk, |s| s.check(side, &[])), [2; 11]);
    }
    let given = numbers(with_psk, |s| s.check(1, &vec![0; 100_000]));
    assert_eq!(given, [1, 1, 1, 1, 1, 1, 1, 0, 1, 1, 1]);
    let given = numbers(with_psk, |s| s.check(2, &[]));
    assert_eq!(given, [1, 1, 1, 1, 1, 0, 1, 1, 1, 1, 1]);
}

/// Allowed in all of Early, whatever was fed; the length field isn't judged.
#[test]
fn binder() {
    let at_early = |answer| [1, answer, answer, answer, answer, 1, 1, 1, 1, 1, 1];
    for (hello, room, answer) in [
        (vec![1, 9, 9, 9], 32, 0),
        (vec![1; 65_535], 32, 0),
        (vec![1; 65_536], 0, 7),
        (vec![2; 3], 0, 7),
        (vec![], 0, 7),
        (vec![2; 4], 0, 8),
        (vec![1; 4], 31, 11),
    ] {
        let given = numbers(with_psk, |s| s.binder(&hello, &mut vec![0; room]));
        assert_eq!(given, at_early(answer));
        let given = numbers(without_psk, |s| s.binder(&hello, &mut vec![0; room]));
        assert_eq!(given, at_early(3));
    }
}

#[test]
fn export() {
    let asked = |name, label, context, length, room| {
        let (label, context) = (vec![b'l'; label], vec![0; context]);
        numbers(with_psk, |s| {
            s.export(name, &label, &context, length, &mut vec![0; room])
        })
    };
    let early = |answer| {
        [
            1, 3, 3, answer, answer, answer, answer, answer, answer, 3, 1,
        ]
    };
    let regular = |answer| [1, 3, 3, 3, 3, 3, 3, answer, answer, answer, 1];
    for (label, context, length, room, answer) in [
        (1, 0, 1, 1, 0),
        (249, 65_535, 8_160, 8_160, 0),
        (1, 0, 0, 32, 0),
        (1, 0, 0, 31, 11),
        (1, 0, 2, 1, 11),
        (0, 0, 1, 1, 10),
        (250, 0, 1, 0, 10),
        (1, 65_536, 1, 0, 10),
        (1, 0, 8_161, 0, 10),
        (1, 0, 65_537, 65_537, 10),
    ] {
        assert_eq!(asked(1, label, context, length, room), early(answer));
        assert_eq!(asked(2, label, context, length, room), regular(answer));
    }
    for name in [0, 3] {
        assert_eq!(asked(name, 0, 0, 0, 0), [1, 2, 2, 2, 2, 2, 2, 2, 2, 2, 1]);
    }
}

#[test]
fn marked_handshakes() {
    let mut session = without_psk(State::ServerHelloFed);
    assert_eq!(number(&session.handshake(0, &[1])), 4);
    assert_eq!(number(&Session::fresh().handshake(0x9999, &[])), 1);
    assert_eq!(session.point(), Point::Early);
}
