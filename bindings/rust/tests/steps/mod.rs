//! A handshake with made-up messages, step by step.

use bindcricket::{Group, Psk, Refusal, Session, Side, Suite};

/// What the last step was.
#[derive(Clone, Copy, Debug, PartialEq, Eq, PartialOrd, Ord)]
pub enum At {
    Fresh,
    Begun,
    ClientHello,
    Early,
    ServerHello,
    Handshake,
    EncryptedExtensions,
    ServerFinished,
    Application,
    ClientFinished,
    Complete,
    Updated,
    Closed,
}

impl At {
    pub const ALL: [Self; 13] = [
        Self::Fresh,
        Self::Begun,
        Self::ClientHello,
        Self::Early,
        Self::ServerHello,
        Self::Handshake,
        Self::EncryptedExtensions,
        Self::ServerFinished,
        Self::Application,
        Self::ClientFinished,
        Self::Complete,
        Self::Updated,
        Self::Closed,
    ];
}

pub const EXTERNAL: Psk<'static> = Psk::External(b"agreed before");

/// A handshake message with a body of zeros.
pub fn message(kind: u8, body: usize) -> Vec<u8> {
    let mut message = vec![0; 4 + body];
    message[..4].copy_from_slice(&(body as u32).to_be_bytes());
    message[0] = kind;
    message
}

/// Takes the step to `at` from the one before. Without a PSK the step to `At::Early` does nothing.
pub fn step(session: &mut Session, at: At, suite: Suite, psk: Psk<'_>) -> Result<(), Refusal> {
    match at {
        At::Fresh => Ok(()),
        At::Begun => session.begin(suite, psk),
        At::ClientHello => session.feed(&message(1, 200)),
        At::Early if matches!(psk, Psk::None) => Ok(()),
        At::Early => session.early(),
        At::ServerHello => session.feed(&message(2, 90)),
        At::Handshake => session.handshake(Group::X25519, &[7; 32]),
        At::EncryptedExtensions => session.feed(&message(8, 40)),
        At::ServerFinished => session.feed(&message(20, 32)),
        At::Application => session.application(),
        At::ClientFinished => session.feed(&message(20, 32)),
        At::Complete => session.complete(),
        At::Updated => session.update(Side::Client),
        At::Closed => {
            session.close();
            Ok(())
        }
    }
}

/// A session that took every step to `at`.
pub fn reach(at: At, suite: Suite, psk: Psk<'_>) -> Session {
    let mut session = Session::new();
    for next in At::ALL.into_iter().filter(|next| *next <= at) {
        step(&mut session, next, suite, psk).expect("a step is taken");
    }
    session
}
