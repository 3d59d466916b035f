//! FIPS 180-4's examples and RFC 4231's cases, through the lower calls.

use crate::json::{vectors, Json};
use schedule::lower;
use schedule::refusal::Refusal;

/// A suite with the hash, so that a lower call can name it.
const SUITES: [(&str, u16, usize); 2] = [("SHA-256", 0x1301, 32), ("SHA-384", 0x1302, 48)];

#[test]
fn fips_180_4() {
    for case in vectors("fips180").items() {
        let name = case.get("hash").text();
        let (_, suite, length) = *SUITES.iter().find(|s| s.0 == name).expect("hash");
        let input = case
            .get("unit")
            .bytes()
            .repeat(case.get("times").number() as usize);
        let mut output = vec![0xa5; length + 1];
        assert_eq!(lower::hash(suite, &input, &mut output), Ok(length));
        assert_eq!(output[..length], case.get("digest").bytes(), "{case:?}");
        assert_eq!(output[length], 0xa5);
    }
}

#[test]
fn rfc_4231() {
    for case in vectors("rfc4231").items() {
        for (name, suite, length) in SUITES {
            rfc_4231_case(case, name, suite, length);
        }
    }
}

/// Keys of 131 bytes are longer than either block and refused; case 5 prints the front only.
fn rfc_4231_case(case: &Json, name: &str, suite: u16, length: usize) {
    let key = case.get("key").bytes();
    let mut output = vec![0xa5; length];
    let answer = lower::hmac(suite, &key, &case.get("data").bytes(), &mut output);
    if key.len() == 131 {
        assert_eq!(answer, Err(Refusal::WrongSize));
        assert_eq!(output, vec![0xa5; length]);
    } else {
        let expected = case.get(&format!("HMAC-{name}")).bytes();
        assert_eq!(answer, Ok(length));
        assert_eq!(output[..expected.len()], expected);
        assert!(expected.len() == length || case.get("case").number() == 5);
    }
}
