//! Every refusal that can be expressed, but for the journal's, and that a refused call changes
//! nothing.

mod steps;

use bindcricket::{
    derive_secret, derive_secret_into, expand, expand_label, extract, extract_into, hash,
    hash_into, hmac, hmac_into, Exporter, Group, KeyName, Psk, Refusal, Session, Side, Suite,
};
use steps::{message, reach, step, At, EXTERNAL};

const SHA256: Suite = Suite::Aes128GcmSha256;
const SHA384: Suite = Suite::Aes256GcmSha384;
const NAMES: [KeyName; 5] = [
    KeyName::ClientEarly,
    KeyName::ClientHandshake,
    KeyName::ServerHandshake,
    KeyName::ClientApplication,
    KeyName::ServerApplication,
];

/// What all reading calls answer.
fn seen(session: &Session) -> Vec<Result<Vec<u8>, Refusal>> {
    let keys = NAMES.map(|name| {
        let keys = session.keys(name)?;
        Ok([keys.key(), keys.iv()].concat())
    });
    let finished = [Side::Client, Side::Server].map(|side| Ok(session.finished(side)?.to_vec()));
    let binder = session.binder(&message(1, 9)).map(|binder| binder.to_vec());
    let exports = [Exporter::Early, Exporter::Regular].map(|exporter| {
        let mut out = vec![0; 20];
        session.export(exporter, b"label", b"", &mut out)?;
        Ok(out)
    });
    keys.into_iter()
        .chain(finished)
        .chain([binder])
        .chain(exports)
        .collect()
}

/// Makes a call that has to be refused. The session answers all that one answers which was not
/// asked, there and at every later step.
fn refused<T>(
    at: At,
    psk: Psk<'_>,
    refusal: Refusal,
    call: impl Fn(&mut Session) -> Result<T, Refusal>,
) {
    let (mut asked, mut other) = (reach(at, SHA256, psk), reach(at, SHA256, psk));
    assert_eq!(call(&mut asked).err(), Some(refusal), "{at:?}");
    assert_eq!(seen(&asked), seen(&other), "{at:?}");
    for next in At::ALL.into_iter().filter(|next| *next > at) {
        assert_eq!(
            step(&mut asked, next, SHA256, psk),
            Ok(()),
            "{at:?}, {next:?}"
        );
        assert_eq!(
            step(&mut other, next, SHA256, psk),
            Ok(()),
            "{at:?}, {next:?}"
        );
        assert_eq!(seen(&asked), seen(&other), "{at:?}, {next:?}");
    }
}

/// Makes a call at every step: it is out of place exactly where it is not among `places`.
fn allowed_at<T>(places: &[At], call: impl Fn(&mut Session) -> Result<T, Refusal>) {
    for at in At::ALL {
        if places.contains(&at) {
            let answer = call(&mut reach(at, SHA256, EXTERNAL));
            assert_ne!(answer.err(), Some(Refusal::NotAllowedHere), "{at:?}");
        } else {
            refused(at, EXTERNAL, Refusal::NotAllowedHere, &call);
        }
    }
}

#[test]
fn not_allowed_here() {
    let at_early = [At::Begun, At::ClientHello, At::Early, At::ServerHello];
    let begun = &At::ALL[1..12];
    allowed_at(&[At::Fresh], |s| s.begin(SHA256, Psk::None));
    for kind in [1, 2, 5, 8, 20, 99] {
        let taking = [
            At::Begun,
            At::ClientHello,
            At::Early,
            At::Handshake,
            At::EncryptedExtensions,
            At::Application,
        ];
        allowed_at(&taking, |s| s.feed(&message(kind, 3)));
    }
    allowed_at(&[At::ClientHello], |s| s.early());
    allowed_at(&[At::ServerHello], |s| s.handshake(Group::X25519, &[7; 32]));
    allowed_at(&[At::ServerFinished], |s| s.application());
    allowed_at(&[At::ClientFinished], |s| s.complete());
    for side in [Side::Client, Side::Server] {
        allowed_at(&[At::Complete, At::Updated], |s| s.update(side));
        let places: &[At] = match side {
            Side::Client => &[At::Application],
            Side::Server => &[At::Handshake, At::EncryptedExtensions],
        };
        allowed_at(places, |s| s.finished(side));
        allowed_at(places, |s| s.check(side, &[0; 32]));
    }
    for name in NAMES {
        allowed_at(begun, |s| s.keys(name));
    }
    allowed_at(&at_early, |s| s.binder(&message(1, 3)));
    for exporter in [Exporter::Early, Exporter::Regular] {
        allowed_at(begun, |s| s.export(exporter, b"label", b"", &mut [0; 9]));
    }
}

/// The conversions from numbers.
#[test]
fn unknown() {
    for suite in Suite::ALL {
        assert_eq!(Suite::try_from(suite.number()), Ok(suite));
    }
    for number in [0, 0x1300, 0x1306, 0x0113] {
        assert_eq!(Suite::try_from(number), Err(Refusal::Unknown));
    }
    for group in &Group::ALL[1..] {
        assert_eq!(Group::try_from(group.number()), Ok(*group));
    }
    for number in [0, 0x0016, 0x001a, 0x001f, 0x0105, 0x1d00] {
        assert_eq!(Group::try_from(number), Err(Refusal::Unknown));
    }
}

#[test]
fn not_held() {
    refused(At::ClientHello, Psk::None, Refusal::NotHeld, |s| s.early());
    for at in [At::Begun, At::ClientHello, At::ServerHello] {
        refused(at, Psk::None, Refusal::NotHeld, |s| {
            s.binder(&message(1, 3))
        });
    }
    // for each name, the steps at which its secret is held
    for (name, from, until) in [
        (KeyName::ClientEarly, At::Early, At::ClientFinished),
        (KeyName::ClientHandshake, At::Handshake, At::ClientFinished),
        (KeyName::ServerHandshake, At::Handshake, At::ClientFinished),
        (KeyName::ClientApplication, At::Application, At::Updated),
        (KeyName::ServerApplication, At::Application, At::Updated),
    ] {
        for at in &At::ALL[1..12] {
            if (from..=until).contains(at) {
                assert!(reach(*at, SHA256, EXTERNAL).keys(name).is_ok());
            } else {
                refused(*at, EXTERNAL, Refusal::NotHeld, |s| s.keys(name));
            }
        }
    }
    for (exporter, from, until) in [
        (Exporter::Early, At::Early, At::ClientFinished),
        (Exporter::Regular, At::Application, At::Updated),
    ] {
        for at in &At::ALL[1..12] {
            let call = |s: &mut Session| s.export(exporter, b"label", b"", &mut [0; 9]);
            if (from..=until).contains(at) {
                assert_eq!(call(&mut reach(*at, SHA256, EXTERNAL)), Ok(()));
            } else {
                refused(*at, EXTERNAL, Refusal::NotHeld, call);
            }
        }
    }
}

#[test]
fn secret_size() {
    let bytes = [1; 129];
    let refuses = |suite, psk| {
        let call = |s: &mut Session| s.begin(suite, psk);
        refused(At::Fresh, EXTERNAL, Refusal::SecretSize, call);
    };
    for suite in Suite::ALL {
        let length = suite.hash_length();
        refuses(suite, Psk::External(&[]));
        refuses(suite, Psk::External(&bytes));
        for wrong in [0, length - 1, length + 1, 80 - length] {
            refuses(suite, Psk::Resumption(&bytes[..wrong]));
        }
        for right in [1, 128] {
            assert_eq!(
                Session::new().begin(suite, Psk::External(&bytes[..right])),
                Ok(())
            );
        }
        assert_eq!(
            Session::new().begin(suite, Psk::Resumption(&bytes[..length])),
            Ok(())
        );
    }
    for group in Group::ALL {
        let length = group.secret_length();
        let mut sizes = vec![length + 1];
        sizes.extend(length.checked_sub(1));
        for wrong in sizes {
            refused(At::ServerHello, EXTERNAL, Refusal::SecretSize, |s| {
                s.handshake(group, &vec![1; wrong])
            });
        }
        let mut session = reach(At::ServerHello, SHA256, EXTERNAL);
        assert_eq!(session.handshake(group, &vec![1; length]), Ok(()));
    }
}

#[test]
fn zero_shared_secret() {
    for group in &Group::ALL[1..] {
        let zeros = vec![0; group.secret_length()];
        if matches!(group, Group::X25519 | Group::X448) {
            refused(At::ServerHello, Psk::None, Refusal::ZeroSharedSecret, |s| {
                s.handshake(*group, &zeros)
            });
        } else {
            let mut session = reach(At::ServerHello, SHA256, Psk::None);
            assert_eq!(session.handshake(*group, &zeros), Ok(()));
        }
    }
}

#[test]
fn no_secret() {
    let call = |s: &mut Session| s.handshake(Group::None, &[]);
    refused(At::ServerHello, Psk::None, Refusal::NoSecret, call);
    assert_eq!(call(&mut reach(At::ServerHello, SHA256, EXTERNAL)), Ok(()));
}

#[test]
fn message_length() {
    for (at, kind) in [
        (At::Begun, 1),
        (At::ClientHello, 2),
        (At::Handshake, 8),
        (At::Application, 20),
    ] {
        let whole = message(kind, 300);
        for wrong in [
            &[][..],
            &whole[..3],
            &whole[..303],
            &[&whole[..], &[0]].concat(),
        ] {
            refused(at, EXTERNAL, Refusal::MessageLength, |s| s.feed(wrong));
        }
        let long = message(kind, 65_532);
        refused(at, EXTERNAL, Refusal::MessageLength, |s| s.feed(&long));
    }
    for wrong in [0, 3, 65_536] {
        let hello = vec![1; wrong];
        refused(At::Begun, EXTERNAL, Refusal::MessageLength, |s| {
            s.binder(&hello)
        });
    }
    assert!(reach(At::Begun, SHA256, EXTERNAL)
        .binder(&[1; 65_535])
        .is_ok());
}

#[test]
fn message_type() {
    for (at, taken) in [
        (At::Begun, &[1][..]),
        (At::ClientHello, &[2]),
        (At::Handshake, &[8, 11, 13, 15, 20]),
        (At::Application, &[5, 11, 15, 20]),
    ] {
        for kind in (0..=25).chain([254, 255]) {
            let message = message(kind, 3);
            if taken.contains(&kind) {
                assert_eq!(reach(at, SHA256, EXTERNAL).feed(&message), Ok(()));
            } else {
                refused(at, EXTERNAL, Refusal::MessageType, |s| s.feed(&message));
            }
        }
    }
    refused(At::Begun, EXTERNAL, Refusal::MessageType, |s| {
        s.binder(&message(2, 3))
    });
}

/// 1,048,576 bytes are taken in all. The session goes on after the refusal with a message that
/// fits.
#[test]
fn input_too_long() {
    let mut session = reach(At::Handshake, SHA256, EXTERNAL);
    let mut left = 1_048_576 - (204 + 94);
    let longest = message(11, 65_531);
    while left >= longest.len() {
        assert_eq!(session.feed(&longest), Ok(()));
        left -= longest.len();
    }
    let before = seen(&session);
    assert_eq!(
        session.feed(&message(11, left - 3)),
        Err(Refusal::InputTooLong)
    );
    assert_eq!(seen(&session), before);
    assert_eq!(session.feed(&message(20, left - 4)), Ok(()));
    assert_eq!(session.application(), Ok(()));
    assert_eq!(session.feed(&message(20, 0)), Err(Refusal::InputTooLong));
}

#[test]
fn out_of_range() {
    let most = 255 * SHA256.hash_length();
    let [label, context] = [vec![b'l'; 250], vec![b'c'; 65_536]];
    for (label, context, length) in [
        (&label[..0], &context[..0], 9),
        (&label, &context[..0], 9),
        (&label[..9], &context, 9),
        (&label[..9], &context[..0], most + 1),
    ] {
        refused(At::Application, EXTERNAL, Refusal::OutOfRange, |s| {
            let mut out = vec![0xa5; length];
            let answer = s.export(Exporter::Regular, label, context, &mut out);
            assert!(out.iter().all(|byte| *byte == 0xa5));
            answer
        });
    }
    let session = reach(At::Application, SHA256, EXTERNAL);
    let mut out = vec![0; most];
    let answer = session.export(
        Exporter::Regular,
        &label[..249],
        &context[..65_535],
        &mut out,
    );
    assert_eq!(answer, Ok(()));
}

#[test]
fn output_too_short() {
    type Call = fn(&Session, &mut [u8]) -> Result<usize, Refusal>;
    let calls: [(At, usize, Call); 4] = [
        (At::Handshake, 28, |s, out| {
            Ok(s.keys_into(KeyName::ClientHandshake, out)?.len())
        }),
        (At::Handshake, 32, |s, out| {
            Ok(s.finished_into(Side::Server, out)?.len())
        }),
        (At::Application, 32, |s, out| {
            Ok(s.finished_into(Side::Client, out)?.len())
        }),
        (At::Begun, 32, |s, out| {
            Ok(s.binder_into(&message(1, 3), out)?.len())
        }),
    ];
    for (at, length, call) in calls {
        for room in [0, length - 1] {
            refused(at, EXTERNAL, Refusal::OutputTooShort, |s| {
                let mut out = vec![0xa5; room];
                let answer = call(s, &mut out);
                assert!(out.iter().all(|byte| *byte == 0xa5));
                answer
            });
        }
        let session = reach(at, SHA256, EXTERNAL);
        for room in [length, length + 9] {
            let mut out = vec![0xa5; room];
            assert_eq!(call(&session, &mut out), Ok(length));
            assert!(out[length..].iter().all(|byte| *byte == 0xa5));
        }
    }
    refused(At::Application, EXTERNAL, Refusal::OutputTooShort, |s| {
        s.export(Exporter::Regular, b"label", b"", &mut [])
    });
}

#[test]
fn too_many_updates() {
    let mut session = reach(At::Complete, SHA256, Psk::None);
    for _ in 0..65_535 {
        assert_eq!(session.update(Side::Server), Ok(()));
    }
    let before = seen(&session);
    assert_eq!(session.update(Side::Server), Err(Refusal::TooManyUpdates));
    assert_eq!(seen(&session), before);
    assert_eq!(session.update(Side::Client), Ok(()));
}

/// The functions below the session, at their limits and one past them.
#[test]
fn functions() {
    let bytes = vec![7; 2_097_153];
    let mut out = [0xa5; 48];
    for (suite, block) in [(SHA256, 64), (SHA384, 128)] {
        let length = suite.hash_length();
        let secret = &bytes[..length];
        let (size, long, range) = (
            Err(Refusal::SecretSize),
            Err(Refusal::InputTooLong),
            Err(Refusal::OutOfRange),
        );

        assert!(hash(suite, &bytes[1..]).is_ok());
        assert_eq!(hash(suite, &bytes).map(drop), long);
        for keyed in [hmac, extract] {
            assert!(keyed(suite, &bytes[..block], &bytes[..1_048_576]).is_ok());
            assert_eq!(keyed(suite, &bytes[..block + 1], b"").map(drop), size);
            assert_eq!(keyed(suite, b"", &bytes[..1_048_577]).map(drop), long);
        }
        assert!(derive_secret(suite, secret, &bytes[..249], &bytes[1..]).is_ok());
        for wrong in [length - 1, length + 1] {
            let secret = &bytes[..wrong];
            assert_eq!(derive_secret(suite, secret, b"l", b"").map(drop), size);
            assert_eq!(expand_label(suite, secret, b"l", b"", &mut [0]), size);
        }
        assert_eq!(derive_secret(suite, secret, b"l", &bytes).map(drop), long);
        for label in [0, 250] {
            let label = &bytes[..label];
            assert_eq!(derive_secret(suite, secret, label, b"").map(drop), range);
            assert_eq!(expand_label(suite, secret, label, b"", &mut [0]), range);
        }

        let mut most = vec![0; 255 * length];
        let mut more = vec![0xa5; 255 * length + 1];
        assert_eq!(
            expand(suite, &bytes[..block], &bytes[..1_024], &mut most),
            Ok(())
        );
        assert_eq!(expand(suite, &bytes[..length - 1], b"", &mut [0]), size);
        assert_eq!(expand(suite, &bytes[..block + 1], b"", &mut [0]), size);
        assert_eq!(expand(suite, secret, &bytes[..1_025], &mut [0]), range);
        assert_eq!(expand(suite, secret, b"", &mut more), range);
        assert_eq!(expand(suite, secret, b"", &mut []), range);
        assert_eq!(
            expand_label(suite, secret, b"l", &bytes[..255], &mut most),
            Ok(())
        );
        assert_eq!(
            expand_label(suite, secret, b"l", &bytes[..256], &mut [0]),
            range
        );
        assert_eq!(expand_label(suite, secret, b"l", b"", &mut more), range);
        assert_eq!(expand_label(suite, secret, b"l", b"", &mut []), range);
        assert!(more.iter().all(|byte| *byte == 0xa5));

        let out = &mut out[..length - 1];
        let short = Err(Refusal::OutputTooShort);
        assert_eq!(hash_into(suite, b"", out).map(drop), short);
        assert_eq!(hmac_into(suite, b"", b"", out).map(drop), short);
        assert_eq!(extract_into(suite, b"", b"", out).map(drop), short);
        assert_eq!(
            derive_secret_into(suite, secret, b"l", b"", out).map(drop),
            short
        );
    }
    assert_eq!(out, [0xa5; 48]);
}

/// Every refusal has its number and a sentence of its own, and is an error.
#[test]
fn table() {
    let mut sentences: Vec<String> = Vec::new();
    for (refusal, number) in Refusal::ALL.into_iter().zip(1..) {
        assert_eq!(refusal.number(), number);
        let error: Box<dyn std::error::Error> = Box::new(refusal);
        let sentence = error.to_string();
        assert!(sentence.ends_with(&format!("(refusal {number})")));
        assert!(!sentences.contains(&sentence));
        sentences.push(sentence);
    }
}
