//! A handshake as a client makes it, with made-up messages: prints the server's handshake key and IV, and checks the server's
//! Finished.
use bindcricket::{Group, KeyName, Psk, Refusal, Session, Side, Suite, Verdict};

fn main() -> Result<(), Refusal> {
    let mut session = Session::new();
    session.begin(Suite::Aes128GcmSha256, Psk::None)?;
    session.feed(&[1, 0, 0, 0])?; // the ClientHello, as it was sent
    session.feed(&[2, 0, 0, 0])?; // the ServerHello, as it was received
    let mut shared_secret = [0; 32]; // of the key exchange
    shared_secret[0] = 7;
    session.handshake(Group::X25519, &shared_secret)?;

    let hex = |bytes: &[u8]| bytes.iter().map(|b| format!("{b:02x}")).collect::<String>();
    let keys = session.keys(KeyName::ServerHandshake)?;
    println!("{} {}", hex(keys.key()), hex(keys.iv()));

    // In a handshake the bytes come from the server; here the session itself tells what they have to be.
    session.feed(&[8, 0, 0, 0])?;
    let received = session.finished(Side::Server)?;
    let matches = session.check(Side::Server, &received)? == Verdict::Matches;
    println!("the server's Finished {}", if matches { "matches" } else { "differs" });
    Ok(())
}
