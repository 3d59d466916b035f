//! Sessions brought to every state that the refusals tell apart.

use schedule::refusal::number;
use schedule::session::Session;

pub const SUITE: u16 = 0x1301;
pub const X25519: u16 = 0x001d;

/// A whole handshake message of a type, with a body of that many bytes.
pub fn message(kind: u8, body: usize) -> Vec<u8> {
    let mut bytes = (body as u32).to_be_bytes().to_vec();
    bytes[0] = kind;
    bytes.resize(4 + body, 0x5a);
    bytes
}

/// The states in the order a session comes to them.
#[derive(Clone, Copy, Debug, PartialEq, Eq, PartialOrd, Ord)]
pub enum State {
    Fresh,
    Begun,
    ClientHelloFed,
    EarlyRan,
    ServerHelloFed,
    Handshake,
    ServerFinishedFed,
    Application,
    ClientFinishedFed,
    Complete,
    Closed,
}

pub const STATES: [State; 11] = [
    State::Fresh,
    State::Begun,
    State::ClientHelloFed,
    State::EarlyRan,
    State::ServerHelloFed,
    State::Handshake,
    State::ServerFinishedFed,
    State::Application,
    State::ClientFinishedFed,
    State::Complete,
    State::Closed,
];

/// A session of an external PSK at a state.
pub fn with_psk(state: State) -> Session {
    session(SUITE, Some(b"psk"), state)
}

/// A session without a PSK at a state; at `EarlyRan` it is as at `ClientHelloFed`.
pub fn without_psk(state: State) -> Session {
    session(SUITE, None, state)
}

pub fn session(suite: u16, psk: Option<&[u8]>, state: State) -> Session {
    let mut session = Session::fresh();
    for step in STATES.into_iter().filter(|step| *step <= state) {
        let answer = match step {
            State::Fresh => Ok(0),
            State::Begun => session.begin(suite, psk.is_some().into(), psk.unwrap_or(&[])),
            State::ClientHelloFed => session.feed(&message(1, 40)),
            State::EarlyRan if psk.is_none() => Ok(0),
            State::EarlyRan => session.early(),
            State::ServerHelloFed => session.feed(&message(2, 50)),
            State::Handshake => session.handshake(X25519, &[7; 32]),
            State::ServerFinishedFed => session.feed(&message(20, 32)),
            State::Application => session.application(),
            State::ClientFinishedFed => session.feed(&message(20, 32)),
            State::Complete => session.complete(),
            State::Closed => session.close(),
        };
        assert_eq!(answer, Ok(0), "{step:?}");
    }
    session
}

/// The number of a call in every state, in the order of `STATES`; a refused call changes nothing.
pub fn numbers<T>(
    make: impl Fn(State) -> Session,
    call: impl Fn(&mut Session) -> Result<T, schedule::refusal::Refusal>,
) -> [u8; 11] {
    STATES.map(|state| {
        let mut session = make(state);
        let before = session.clone();
        let number = number(&call(&mut session));
        assert!(number == 0 || session == before, "{state:?}");
        number
    })
}
