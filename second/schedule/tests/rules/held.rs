//! The ten places: when each is held, that it then has the diagram's value, and else zeros.

use crate::states::{message, session, with_psk, State, STATES, X25519};
use schedule::book::{Place, Point};
use schedule::diagram;
use schedule::refusal::Refusal;
use schedule::session::{Session, PLACE_LENGTH};
use schedule::suite::Suite;

/// Held in the states from the first to the last.
const SPANS: [(Place, State, State); 10] = [
    (Place::Chain, State::Begun, State::ClientFinishedFed),
    (Place::BinderKey, State::Begun, State::ServerHelloFed),
    (
        Place::ClientEarly,
        State::EarlyRan,
        State::ClientFinishedFed,
    ),
    (
        Place::EarlyExporter,
        State::EarlyRan,
        State::ClientFinishedFed,
    ),
    (
        Place::ClientHandshake,
        State::Handshake,
        State::ClientFinishedFed,
    ),
    (
        Place::ServerHandshake,
        State::Handshake,
        State::ClientFinishedFed,
    ),
    (
        Place::ClientApplication,
        State::Application,
        State::Complete,
    ),
    (
        Place::ServerApplication,
        State::Application,
        State::Complete,
    ),
    (Place::Exporter, State::Application, State::Complete),
    (Place::Resumption, State::Complete, State::Complete),
];

fn nonzero(session: &Session, place: Place) -> bool {
    session.place(place) != &[0; PLACE_LENGTH]
}

#[test]
fn spans_with_a_psk() {
    for suite in [0x1301, 0x1302, 0x1303, 0x1304, 0x1305] {
        for state in STATES {
            let session = session(suite, Some(&[9; 40]), state);
            for (place, first, last) in SPANS {
                let held = first <= state && state <= last;
                assert_eq!(nonzero(&session, place), held, "{place:?} {state:?}");
                assert_eq!(session.book().holds(place), held);
            }
            assert_diagram(&session, suite);
        }
    }
}

#[test]
fn spans_without_a_psk() {
    let never = [Place::BinderKey, Place::ClientEarly, Place::EarlyExporter];
    for state in STATES {
        let session = session(0x1302, None, state);
        for (place, first, last) in SPANS {
            let held = first <= state && state <= last && !never.contains(&place);
            assert_eq!(nonzero(&session, place), held, "{place:?} {state:?}");
        }
        assert_diagram(&session, 0x1302);
    }
}

fn assert_diagram(session: &Session, suite: u16) {
    let hash = Suite::from_number(suite).expect("suite").hash;
    for place in Place::ALL {
        let mut expected = [0; PLACE_LENGTH];
        if session.book().holds(place) {
            let secret = diagram::secret(session.book(), hash, place);
            expected[..hash.length()].copy_from_slice(&secret);
        }
        assert_eq!(session.place(place), &expected, "{place:?}");
    }
}

#[test]
fn updates_move_one_side() {
    let mut session = with_psk(State::Complete);
    for side in [1, 1, 2, 1, 2] {
        let before = session.clone();
        assert_eq!(session.update(side), Ok(0));
        for (place, own) in [(Place::ClientApplication, 1), (Place::ServerApplication, 2)] {
            assert_eq!(session.place(place) != before.place(place), side == own);
        }
        assert_diagram(&session, 0x1301);
    }
}

/// What is fed after the server's Finished counts for the resumption secret only.
#[test]
fn transcripts() {
    let mut one = with_psk(State::Application);
    let mut other = one.clone();
    assert_eq!(one.feed(&message(11, 10)), Ok(0));
    assert_eq!(other.feed(&message(5, 0)), Ok(0));
    for session in [&mut one, &mut other] {
        assert_eq!(session.feed(&message(20, 32)), Ok(0));
        assert_eq!(session.complete(), Ok(0));
    }
    for (place, _, _) in SPANS {
        let differs = place == Place::Resumption;
        assert_eq!(one.place(place) != other.place(place), differs, "{place:?}");
    }
}

#[test]
fn refused_handshake_keeps_the_chain() {
    let mut session = with_psk(State::ServerHelloFed);
    let before = session.clone();
    assert_eq!(session.handshake(X25519, &[0; 32]), Err(Refusal::AllZero));
    assert_eq!(session, before);
}

/// An external PSK of zeros gives the early secret of none, but is one.
#[test]
fn psk_of_zeros() {
    let zeros = session(0x1301, Some(&[0; 32]), State::ServerHelloFed);
    let none = session(0x1301, None, State::ServerHelloFed);
    assert_eq!(zeros.place(Place::Chain), none.place(Place::Chain));
    assert!(nonzero(&zeros, Place::BinderKey));
    assert_eq!(zeros.clone().handshake(0, &[]), Ok(0));
    assert_eq!(none.clone().handshake(0, &[]), Err(Refusal::NoSecretAtAll));
}

#[test]
fn closed_sessions_are_equal() {
    let mut fresh = Session::fresh();
    fresh.close().expect("close");
    fresh.close().expect("close");
    assert_eq!(fresh.point(), Point::Closed);
    for state in STATES {
        let mut session = with_psk(state);
        session.close().expect("close");
        assert_eq!(session, fresh);
    }
}

/// 0 asks for 32 bytes, also where H is 48.
#[test]
fn export_of_length_0() {
    for suite in [0x1301, 0x1302] {
        let session = session(suite, None, State::Complete);
        let (mut default, mut named) = ([0xa5; 64], [0xa5; 64]);
        assert_eq!(session.export(2, b"label", b"", 0, &mut default), Ok(32));
        assert_eq!(session.export(2, b"label", b"", 32, &mut named), Ok(32));
        assert_eq!(default, named);
        assert_eq!(default[32..], [0xa5; 32]);
    }
}
