//! RFC 5869's SHA-256 cases, RFC 8448's single expansions and the marked labels.

use crate::json::vectors;
use schedule::hkdf::hkdf_label;
use schedule::lower;
use schedule::refusal::Refusal;

const SUITE: u16 = 0x1301;

/// The second case's salt of 80 bytes is longer than a block and refused; its expansion runs.
#[test]
fn rfc_5869() {
    for case in vectors("rfc5869").items() {
        let salt = case.get("salt").bytes();
        let secret = case.get("PRK").bytes();
        let mut output = [0xa5; 32];
        let answer = lower::extract(SUITE, &salt, &case.get("IKM").bytes(), &mut output);
        if case.get("case").number() == 2 {
            assert_eq!(answer, Err(Refusal::WrongSize));
            assert_eq!(output, [0xa5; 32]);
        } else {
            assert_eq!(answer, Ok(32));
            assert_eq!(output[..], secret);
        }
        let length = case.get("L").number() as usize;
        let mut output = vec![0xa5; length];
        let info = case.get("info").bytes();
        assert_eq!(
            lower::expand(SUITE, &secret, &info, length, &mut output),
            Ok(length)
        );
        assert_eq!(output, case.get("OKM").bytes());
    }
}

/// The traces print each expansion's secret, info and output.
#[test]
fn rfc_8448_expansions() {
    for name in [
        "rfc8448_simple_1rtt",
        "rfc8448_resumed_0rtt",
        "rfc8448_hello_retry_request",
        "rfc8448_client_authentication",
        "rfc8448_compatibility_mode",
    ] {
        let trace = vectors(name);
        assert!(trace.get("checks").items().len() > 15);
        for check in trace.get("checks").items() {
            let expected = check.get("out").bytes();
            let mut output = vec![0; expected.len()];
            let (secret, info) = (check.get("prk").bytes(), check.get("info").bytes());
            let answer = lower::expand(SUITE, &secret, &info, expected.len(), &mut output);
            assert_eq!(answer, Ok(expected.len()));
            assert_eq!(output, expected);
        }
    }
}

/// The first trace's ticket, from its resumption secret (RFC 8446, 4.6.1), is the second's PSK.
#[test]
fn ticket() {
    let expected = vectors("rfc8448_simple_1rtt").get("expected").clone();
    let nonce = expected.get("ticket_nonce").bytes();
    let secret = expected.get("resumption").bytes();
    let mut psk = vec![0; 32];
    let answer = lower::expand_label(SUITE, &secret, b"resumption", &nonce, 32, &mut psk);
    assert_eq!(answer, Ok(32));
    assert_eq!(psk, expected.get("ticket_psk").bytes());
    assert_eq!(psk, vectors("rfc8448_resumed_0rtt").get("psk").bytes());
}

#[test]
fn marked_labels() {
    assert_eq!(hkdf_label(b"key", b"", 16), b"\x00\x10\x09tls13 key\x00");
    assert_eq!(hkdf_label(b"iv", b"", 12), b"\x00\x0c\x08tls13 iv\x00");
    assert_eq!(hkdf_label(b"finished", b"", 32).len(), 18);
    assert_eq!(hkdf_label(b"derived", &[0; 32], 32).len(), 49);
}
