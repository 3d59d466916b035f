//! The values that the calls hand out: their sizes by suite, and SHA-384, which no published trace
//! has.

mod steps;

use bindcricket::{Exporter, HashValue, KeyName, Psk, Refusal, Session, Side, Suite, TrafficKeys};
use steps::{message, reach, At, EXTERNAL};

#[test]
fn sizes() -> Result<(), Refusal> {
    for suite in Suite::ALL {
        let session = reach(At::Handshake, suite, EXTERNAL);
        for name in [
            KeyName::ClientEarly,
            KeyName::ClientHandshake,
            KeyName::ServerHandshake,
        ] {
            let keys = session.keys(name)?;
            assert_eq!(keys.key().len(), suite.key_length());
        }
        assert_eq!(session.finished(Side::Server)?.len(), suite.hash_length());
        let session = reach(At::Begun, suite, EXTERNAL);
        assert_eq!(session.binder(&message(1, 3))?.len(), suite.hash_length());
    }
    Ok(())
}

/// Worked out by the RFC's diagram with the HMAC of Python's standard library.
const BINDER: &str = "221269e0fe777c9f0d73c7a17ed63dad417f7f6ef9b239a2b9ff44c6ab92ae25\
                      8289507e98cfc53c58e8b17702f5e8af";
const CLIENT_EARLY: &str = "2b41201429fba4a9c63140c6013a0e9f5c19a737ab2826d5597057a4fda365d4\
                            82706df7e524bbdaee414813";
const SERVER_HANDSHAKE: &str = "cce5b466de403bc9323bf2265e34c878a769a5be20f4eb525bbd7743fc72a2db\
                                5e33f74f8ef2187c3de0d3e9";
const SERVER_FINISHED: &str = "9d185a4c24b764f5b9a13164cf13facc6003de14264ce5888602bec6536202e3\
                               e5fbda7b4ef5b281f84c78eda6ba05bc";
const CLIENT_UPDATED: &str = "ec971b654bad534b4eabf79f28018bf9356ecae96504b2fd3cfae9b25f2fbf75\
                              bd874a6c8a50b29fb9706ad8";
const EXPORT: &str = "4514e7c300bceec385ae6c5e5ac8585a5332478fff64f13205193bf25efd18bd\
                      f17d6ea0815967256526bd127a6b70e185124e97114fa3ed16d31745";

fn hex(bytes: &[u8]) -> String {
    bytes.iter().map(|byte| format!("{byte:02x}")).collect()
}

#[test]
fn sha384() -> Result<(), Refusal> {
    let at = |at| reach(at, Suite::Aes256GcmSha384, EXTERNAL);
    let keys = |session: &Session, name| {
        let keys = session.keys(name)?;
        Ok::<_, Refusal>(hex(keys.key()) + &hex(keys.iv()))
    };
    assert_eq!(hex(&at(At::Begun).binder(&message(1, 200))?), BINDER);
    assert_eq!(keys(&at(At::Early), KeyName::ClientEarly)?, CLIENT_EARLY);
    let session = at(At::EncryptedExtensions);
    assert_eq!(keys(&session, KeyName::ServerHandshake)?, SERVER_HANDSHAKE);
    assert_eq!(hex(&session.finished(Side::Server)?), SERVER_FINISHED);
    let session = at(At::Updated);
    assert_eq!(keys(&session, KeyName::ClientApplication)?, CLIENT_UPDATED);
    let mut out = [0; 60];
    session.export(Exporter::Regular, b"EXPORTER-test", b"context", &mut out)?;
    assert_eq!(hex(&out), EXPORT);
    Ok(())
}

/// Closing twice is as good as once, and all else is refused.
#[test]
fn closed() {
    let mut session = reach(At::Closed, Suite::Aes128GcmSha256, Psk::None);
    session.close();
    let answer = session.begin(Suite::Aes128GcmSha256, Psk::None);
    assert_eq!(answer, Err(Refusal::NotAllowedHere));
}

/// What is printed while looking for a mistake holds no secret.
#[test]
fn debug_shows_nothing() -> Result<(), Refusal> {
    let session = reach(At::Handshake, Suite::Aes128GcmSha256, EXTERNAL);
    assert_eq!(format!("{session:?}"), "Session { .. }");
    let keys = session.keys(KeyName::ClientHandshake)?;
    assert_eq!(format!("{keys:?}"), "TrafficKeys { .. }");
    let finished = session.finished(Side::Server)?;
    assert_eq!(format!("{finished:?}"), "HashValue { .. }");
    assert_eq!(format!("{EXTERNAL:?}"), "External(..)");
    Ok(())
}

/// A session may be handed to another thread, and read by several.
#[test]
fn threads() {
    fn is<T: Send + Sync>() {}
    is::<Session>();
    is::<TrafficKeys>();
    is::<HashValue>();
}
