//! The limits of the lower calls, and which number comes first where several apply.

use schedule::lower;
use schedule::refusal::{number, Answer};

const MIB: usize = 1_048_576;

/// The number of a call; it leaves the lent bytes that it doesn't report written.
fn judged(room: usize, call: impl Fn(&mut [u8]) -> Answer) -> u8 {
    let mut output = vec![0xa5; room];
    let answer = call(&mut output);
    let written = answer.unwrap_or(0);
    assert!(output[written..].iter().all(|byte| *byte == 0xa5));
    number(&answer)
}

#[test]
fn hash() {
    for (suite, input, room, answer) in [
        (0x1301, 2 * MIB, 33, 0),
        (0x1301, 2 * MIB + 1, 0, 9),
        (0x1302, 0, 48, 0),
        (0x1302, 0, 47, 11),
        (0x1305, 0, 31, 11),
        (0x1306, 2 * MIB + 1, 0, 2),
    ] {
        let input = vec![0; input];
        assert_eq!(judged(room, |out| lower::hash(suite, &input, out)), answer);
    }
}

#[test]
fn hmac_and_extract() {
    for (suite, key, message, room, answer) in [
        (0x1301, 0, 0, 32, 0),
        (0x1301, 64, MIB, 40, 0),
        (0x1301, 65, MIB + 1, 0, 4),
        (0x1301, 64, MIB + 1, 0, 9),
        (0x1301, 64, 0, 31, 11),
        (0x1302, 128, 0, 48, 0),
        (0x1302, 129, 0, 48, 4),
        (0x1302, 0, 0, 47, 11),
        (0, 129, MIB + 1, 0, 2),
    ] {
        let (key, message) = (vec![1; key], vec![2; message]);
        let hmac = judged(room, |out| lower::hmac(suite, &key, &message, out));
        let extract = judged(room, |out| lower::extract(suite, &key, &message, out));
        assert_eq!((hmac, extract), (answer, answer));
    }
}

#[test]
fn expand() {
    for (suite, secret, info, length, room, answer) in [
        (0x1301, 32, 0, 1, 64, 0),
        (0x1301, 64, 1_024, 8_160, 8_160, 0),
        (0x1301, 31, 1_025, 0, 0, 4),
        (0x1301, 65, 0, 1, 1, 4),
        (0x1301, 32, 1_025, 1, 1, 10),
        (0x1301, 32, 0, 0, 0, 10),
        (0x1301, 32, 0, 8_161, 0, 10),
        (0x1301, 32, 0, 33, 32, 11),
        (0x1302, 48, 0, 12_240, 12_240, 0),
        (0x1302, 48, 0, 12_241, 0, 10),
        (0x1302, 47, 0, 1, 1, 4),
        (0x1302, 128, 0, 1, 1, 0),
        (0x1302, 129, 0, 1, 1, 4),
        (1, 0, 0, 0, 0, 2),
    ] {
        let (secret, info) = (vec![1; secret], vec![2; info]);
        let given = judged(room, |out| {
            lower::expand(suite, &secret, &info, length, out)
        });
        assert_eq!(given, answer);
    }
}

#[test]
fn expand_label() {
    for (suite, secret, label, context, length, room, answer) in [
        (0x1301, 32, 1, 0, 12, 20, 0),
        (0x1301, 32, 249, 255, 8_160, 8_160, 0),
        (0x1301, 33, 0, 256, 0, 0, 4),
        (0x1301, 32, 0, 0, 1, 1, 10),
        (0x1301, 32, 250, 0, 1, 1, 10),
        (0x1301, 32, 1, 256, 1, 1, 10),
        (0x1301, 32, 1, 0, 0, 1, 10),
        (0x1301, 32, 1, 0, 8_161, 0, 10),
        (0x1301, 32, 1, 0, 65_537, 1, 10),
        (0x1301, 32, 1, 0, 2, 1, 11),
        (0x1302, 48, 1, 0, 12_240, 12_240, 0),
        (0x1302, 48, 1, 0, 12_241, 12_241, 10),
        (0x1302, 32, 1, 0, 1, 1, 4),
        (0xffff, 0, 0, 0, 0, 0, 2),
    ] {
        let (secret, label, context) = (vec![1; secret], vec![2; label], vec![3; context]);
        let given = judged(room, |out| {
            lower::expand_label(suite, &secret, &label, &context, length, out)
        });
        assert_eq!(given, answer);
    }
}

#[test]
fn derive_secret() {
    for (suite, secret, label, messages, room, answer) in [
        (0x1301, 32, 1, 0, 32, 0),
        (0x1301, 32, 249, 2 * MIB, 33, 0),
        (0x1301, 31, 0, 2 * MIB + 1, 0, 4),
        (0x1301, 32, 0, 2 * MIB + 1, 0, 9),
        (0x1301, 32, 0, 0, 0, 10),
        (0x1301, 32, 250, 0, 32, 10),
        (0x1301, 32, 1, 0, 31, 11),
        (0x1302, 48, 1, 0, 47, 11),
        (0x1300, 0, 0, 0, 0, 2),
    ] {
        let (secret, label, messages) = (vec![1; secret], vec![2; label], vec![3; messages]);
        let given = judged(room, |out| {
            lower::derive_secret(suite, &secret, &label, &messages, out)
        });
        assert_eq!(given, answer);
    }
}

/// In Derive-Secret "" is the hash of nothing; in Expand-Label it is no byte.
#[test]
fn empty_context() {
    let (mut nothing, mut derived, mut expanded) = ([0; 32], [0; 32], [0; 32]);
    lower::hash(0x1301, b"", &mut nothing).expect("hash");
    lower::derive_secret(0x1301, &[1; 32], b"derived", b"", &mut derived).expect("derive");
    lower::expand_label(0x1301, &[1; 32], b"derived", &nothing, 32, &mut expanded).expect("label");
    assert_eq!(derived, expanded);
    lower::expand_label(0x1301, &[1; 32], b"derived", b"", 32, &mut expanded).expect("label");
    assert_ne!(derived, expanded);
}
