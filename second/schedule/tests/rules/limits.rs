//! The limits that take many calls to reach.

use crate::states::{message, session, with_psk, State, SUITE};
use schedule::refusal::{number, Refusal};

/// Exactly 1,048,576 fed bytes are taken; then even the shortest message is 9.
#[test]
fn transcript_limit() {
    let mut session = with_psk(State::Handshake);
    let limit = 1_048_576;
    while limit - session.book().transcript.whole().len() > 65_535 {
        assert_eq!(session.feed(&message(11, 60_000)), Ok(0));
    }
    let left = limit - session.book().transcript.whole().len();
    assert_eq!(
        session.feed(&message(11, left - 3)),
        Err(Refusal::OverLimit)
    );
    assert_eq!(
        session.feed(&message(9, left - 3)),
        Err(Refusal::MessageType)
    );
    assert_eq!(session.feed(&message(11, left - 4)), Ok(0));
    for kind in [11, 20] {
        assert_eq!(session.feed(&message(kind, 0)), Err(Refusal::OverLimit));
    }
    assert_eq!(session.finished(2, &mut [0; 32]), Ok(32));
    assert_eq!(number(&session.application()), 1);
}

/// Each side has 65,535 updates of its own.
#[test]
fn update_limit() {
    let mut session = session(SUITE, None, State::Complete);
    for _ in 0..65_535 {
        assert_eq!(session.update(1), Ok(0));
    }
    assert_eq!(session.update(1), Err(Refusal::UpdatesSpent));
    assert_eq!(session.update(3), Err(Refusal::Unknown));
    assert_eq!(session.update(2), Ok(0));
    assert_eq!(session.book().updates, [65_535, 1]);
}
