//! The handshakes of RFC 8448, sections 3, 4, 6 and 7: through a session, and through the functions
//! below it.

mod json;

use bindcricket::{
    derive_secret, expand, expand_label, extract, hash, hmac, Exporter, Group, KeyName, Psk,
    Refusal, Session, Side, Suite, Verdict,
};
use json::Json;

#[test]
fn section_3_simple_1rtt() {
    run("rfc8448_simple_1rtt", 3);
}

#[test]
fn section_4_resumed_0rtt() {
    run("rfc8448_resumed_0rtt", 4);
}

#[test]
fn section_6_client_authentication() {
    run("rfc8448_client_authentication", 6);
}

#[test]
fn section_7_compatibility_mode() {
    run("rfc8448_compatibility_mode", 7);
}

/// The ticket of section 3 is the PSK of section 4 (RFC 8446, 4.6.1).
#[test]
fn ticket() -> Result<(), Refusal> {
    let published = &json::read("rfc8448_simple_1rtt")["expected"];
    let mut psk = [0; 32];
    let secret = published["resumption"].bytes();
    let nonce = published["ticket_nonce"].bytes();
    expand_label(SUITE, &secret, b"resumption", &nonce, &mut psk)?;
    assert_eq!(psk[..], published["ticket_psk"].bytes());
    assert_eq!(psk[..], json::read("rfc8448_resumed_0rtt")["psk"].bytes());
    Ok(())
}

/// The suite of every trace.
const SUITE: Suite = Suite::Aes128GcmSha256;

fn run(file: &str, section: usize) {
    let trace = json::read(file);
    assert_eq!(trace["section"].number(), section);
    assert_eq!(number(&trace["suite"]), SUITE.number());
    by_session(&trace).expect("nothing is refused");
    by_functions(&trace).expect("nothing is refused");
}

/// A number of four hexadecimal digits.
fn number(json: &Json) -> u16 {
    u16::from_str_radix(json.text(), 16).expect("four digits")
}

/// Feeds the messages to a session and compares every key, IV, Finished value and binder.
fn by_session(trace: &Json) -> Result<(), Refusal> {
    let published = &trace["expected"];
    let psk = trace["psk"].bytes();
    let mut session = Session::new();
    if psk.is_empty() {
        session.begin(SUITE, Psk::None)?;
    } else {
        session.begin(SUITE, Psk::Resumption(&psk))?;
        let cut_hello = published["binder_cut_hello"].bytes();
        let binder = published["binder"].bytes();
        assert_eq!(*session.binder(&cut_hello)?, binder);
        assert_eq!(*session.binder_into(&cut_hello, &mut [0; 40])?, binder);
    }
    for message in trace["messages"].list() {
        let bytes = message["hex"].bytes();
        match (message["name"].text(), message["from"].text()) {
            ("ClientHello", _) if !psk.is_empty() => {
                session.feed(&bytes)?;
                session.early()?;
                keys(&session, KeyName::ClientEarly, published)?;
                let secret = published["early_exporter"].bytes();
                exports(&session, Exporter::Early, &secret)?;
            }
            ("ServerHello", _) => {
                session.feed(&bytes)?;
                let group = Group::try_from(number(&trace["group"]))?;
                session.handshake(group, &trace["secret"].bytes())?;
                keys(&session, KeyName::ClientHandshake, published)?;
                keys(&session, KeyName::ServerHandshake, published)?;
            }
            ("Finished", "server") => {
                finished(&session, Side::Server, &published["server_finished"])?;
                let verdict = session.check(Side::Server, &bytes[4..])?;
                assert_eq!(verdict, Verdict::Matches);
                session.feed(&bytes)?;
                session.application()?;
            }
            ("Finished", _) => {
                finished(&session, Side::Client, &published["client_finished"])?;
                let verdict = session.check(Side::Client, &bytes[4..])?;
                assert_eq!(verdict, Verdict::Matches);
                session.feed(&bytes)?;
                session.complete()?;
            }
            _ => session.feed(&bytes)?,
        }
    }
    exports(&session, Exporter::Regular, &published["exporter"].bytes())?;
    for (side, name) in [
        (Side::Client, KeyName::ClientApplication),
        (Side::Server, KeyName::ServerApplication),
    ] {
        keys(&session, name, published)?;
        let secret = published[published_as(name)].bytes();
        updates(&mut session, side, name, secret)?;
    }
    Ok(())
}

/// The name of a traffic secret in the vectors.
fn published_as(name: KeyName) -> &'static str {
    match name {
        KeyName::ClientEarly => "client_early",
        KeyName::ClientHandshake => "client_handshake",
        KeyName::ServerHandshake => "server_handshake",
        KeyName::ClientApplication => "client_application",
        KeyName::ServerApplication => "server_application",
    }
}

/// The published key and IV, in both forms.
fn keys(session: &Session, name: KeyName, published: &Json) -> Result<(), Refusal> {
    let secret = published_as(name);
    let key = published[&format!("{secret}_key")].bytes();
    let iv = published[&format!("{secret}_iv")].bytes();
    let keys = session.keys(name)?;
    assert_eq!((keys.key(), &keys.iv()[..]), (&key[..], &iv[..]));
    let mut out = [0xa5; 30];
    assert_eq!(*session.keys_into(name, &mut out)?, [key, iv].concat());
    assert_eq!(out[28..], [0xa5; 2]);
    Ok(())
}

/// The published Finished value, in both forms and by Check.
fn finished(session: &Session, side: Side, published: &Json) -> Result<(), Refusal> {
    let value = published.bytes();
    assert_eq!(*session.finished(side)?, value);
    let mut out = [0xa5; 33];
    assert_eq!(*session.finished_into(side, &mut out)?, value);
    assert_eq!(out[32], 0xa5);
    assert_eq!(session.check(side, &value)?, Verdict::Matches);
    assert_eq!(session.check(side, &value[1..])?, Verdict::Differs);
    out[31] ^= 1;
    assert_eq!(session.check(side, &out[..32])?, Verdict::Differs);
    Ok(())
}

/// RFC 8448 publishes no exported value: it is worked out from the published exporter secret (RFC
/// 8446, 7.5).
fn exports(session: &Session, exporter: Exporter, secret: &[u8]) -> Result<(), Refusal> {
    let inner = derive_secret(SUITE, secret, b"EXPORTER-test", b"")?;
    let context = hash(SUITE, b"context")?;
    let (mut expected, mut out) = ([0; 50], [0; 50]);
    expand_label(SUITE, &inner, b"exporter", &context, &mut expected)?;
    session.export(exporter, b"EXPORTER-test", b"context", &mut out)?;
    assert_eq!(out, expected);
    Ok(())
}

/// RFC 8448 publishes no updated key: two are worked out from the published secret (RFC 8446, 7.2
/// and 7.3).
fn updates(
    session: &mut Session,
    side: Side,
    name: KeyName,
    mut secret: Vec<u8>,
) -> Result<(), Refusal> {
    for _ in 0..2 {
        let mut next = vec![0; 32];
        expand_label(SUITE, &secret, b"traffic upd", b"", &mut next)?;
        secret = next;
        let (mut key, mut iv) = ([0; 16], [0; 12]);
        expand_label(SUITE, &secret, b"key", b"", &mut key)?;
        expand_label(SUITE, &secret, b"iv", b"", &mut iv)?;
        session.update(side)?;
        let keys = session.keys(name)?;
        assert_eq!((keys.key(), keys.iv()), (&key[..], &iv));
    }
    Ok(())
}

/// Works the diagram of RFC 8446, 7.1, out of the functions below the session and compares every
/// secret.
fn by_functions(trace: &Json) -> Result<(), Refusal> {
    let published = &trace["expected"];
    let is = |name: &str, value: &[u8]| assert_eq!(value, published[name].bytes(), "{name}");
    let derived = |name: &str, secret: &[u8], label: &str, messages: &[u8]| {
        let value = derive_secret(SUITE, secret, label.as_bytes(), messages)?;
        is(name, &value);
        Ok::<_, Refusal>(value)
    };
    let finished_key = |name: &str, base: &[u8]| {
        let mut key = [0; 32];
        expand_label(SUITE, base, b"finished", b"", &mut key)?;
        is(name, &key);
        Ok::<_, Refusal>(key)
    };
    let hello = until(trace, "client", "ClientHello");
    let hellos = until(trace, "server", "ServerHello");
    let to_server_finished = until(trace, "server", "Finished");
    let whole = until(trace, "client", "Finished");

    let psk = trace["psk"].bytes();
    let no_psk = psk.is_empty();
    let early = extract(SUITE, b"", if no_psk { &[0; 32] } else { &psk })?;
    is("early_secret", &early);
    if !no_psk {
        derived("client_early", &early, "c e traffic", &hello)?;
        derived("early_exporter", &early, "e exp master", &hello)?;
        is("client_early_transcript_hash", &hash(SUITE, &hello)?);
        let binder_key = derived("binder_key", &early, "res binder", b"")?;
        let binder_key = finished_key("binder_finished_key", &binder_key)?;
        let cut_hello = hash(SUITE, &published["binder_cut_hello"].bytes())?;
        is("binder_hash", &cut_hello);
        is("binder", &hmac(SUITE, &binder_key, &cut_hello)?);
    }
    let salt = derived("derived_handshake", &early, "derived", b"")?;
    let handshake = extract(SUITE, &salt, &trace["secret"].bytes())?;
    is("handshake_secret", &handshake);
    let client = derived("client_handshake", &handshake, "c hs traffic", &hellos)?;
    let server = derived("server_handshake", &handshake, "s hs traffic", &hellos)?;
    finished_key("client_finished_key", &client)?;
    finished_key("server_finished_key", &server)?;
    let salt = derived("derived_master", &handshake, "derived", b"")?;
    let master = extract(SUITE, &salt, &[0; 32])?;
    is("master_secret", &master);
    for (name, label) in [
        ("client_application", "c ap traffic"),
        ("server_application", "s ap traffic"),
        ("exporter", "exp master"),
    ] {
        derived(name, &master, label, &to_server_finished)?;
    }
    derived("resumption", &master, "res master", &whole)?;
    for (name, messages) in [
        ("hash_of_nothing", vec![]),
        ("client_handshake_transcript_hash", hellos),
        ("client_application_transcript_hash", to_server_finished),
        ("resumption_transcript_hash", whole),
    ] {
        is(name, &hash(SUITE, &messages)?);
    }

    // the expansions that the trace prints with their secret and info
    for check in trace["checks"].list() {
        let expected = check["out"].bytes();
        let mut out = vec![0; expected.len()];
        let (secret, info) = (check["prk"].bytes(), check["info"].bytes());
        expand(SUITE, &secret, &info, &mut out)?;
        assert_eq!(out, expected);
    }
    Ok(())
}

/// The messages from the first to a side's message of a name.
fn until(trace: &Json, from: &str, name: &str) -> Vec<u8> {
    let messages = trace["messages"].list();
    let last = messages
        .iter()
        .position(|message| message["from"].text() == from && message["name"].text() == name)
        .expect("the message");
    let fed = messages[..=last].iter();
    fed.flat_map(|message| message["hex"].bytes()).collect()
}
