//! RFC 8448, section 5: a retried handshake.
//!
//! A retry counts as the ServerHello, so the second ClientHello isn't taken, and only the secrets
//! that cover no message are the peer's.

use crate::json::{vectors, Json};
use schedule::book::Place;
use schedule::refusal::Refusal;
use schedule::session::Session;

#[test]
fn retried_trace() {
    let trace = vectors("rfc8448_hello_retry_request");
    let messages = trace.get("messages").items();
    let expected = trace.get("expected");
    let mut session = Session::fresh();
    assert_eq!(session.begin(0x1301, 0, &[]), Ok(0));
    assert!(is(&session, Place::Chain, expected.get("early_secret")));
    let refused = Err(Refusal::NotAllowedHere);
    for (message, answer) in messages.iter().zip([Ok(0), Ok(0), refused, refused]) {
        assert_eq!(session.feed(&message.get("hex").bytes()), answer);
    }
    let secret = trace.get("secret").bytes();
    assert_eq!(session.handshake(0x0017, &secret), Ok(0));
    assert!(is(&session, Place::Chain, expected.get("handshake_secret")));
    assert!(!is(
        &session,
        Place::ClientHandshake,
        expected.get("client_handshake")
    ));
    assert!(!is(
        &session,
        Place::ServerHandshake,
        expected.get("server_handshake")
    ));
    for message in &messages[4..8] {
        assert_eq!(session.feed(&message.get("hex").bytes()), Ok(0));
    }
    assert_eq!(session.application(), Ok(0));
    assert!(is(&session, Place::Chain, expected.get("master_secret")));
}

fn is(session: &Session, place: Place, value: &Json) -> bool {
    session.place(place)[..32] == value.bytes()
}
