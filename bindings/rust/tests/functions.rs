//! The published vectors of the functions below the session: FIPS 180-4, RFC 4231 and RFC 5869.

mod json;

use bindcricket::{
    derive_secret, derive_secret_into, expand, extract, extract_into, hash, hash_into, hmac,
    hmac_into, Refusal, Suite,
};

/// A suite with each hash.
const SHA256: Suite = Suite::Aes128GcmSha256;
const SHA384: Suite = Suite::Aes256GcmSha384;

#[test]
fn fips_180_4() {
    for case in json::read("fips180").list() {
        let suite = match case["hash"].text() {
            "SHA-256" => SHA256,
            _ => SHA384,
        };
        let input = case["unit"].bytes().repeat(case["times"].number());
        let digest = hash(suite, &input).expect("a digest");
        assert_eq!(*digest, case["digest"].bytes());
        assert_eq!(digest.len(), suite.hash_length());
    }
}

/// The keys of cases 6 and 7 are longer than a block, which is refused; of case 5 the first 16
/// bytes are published.
#[test]
fn rfc_4231() {
    for case in json::read("rfc4231").list() {
        for (suite, name) in [(SHA256, "HMAC-SHA-256"), (SHA384, "HMAC-SHA-384")] {
            let mac = hmac(suite, &case["key"].bytes(), &case["data"].bytes());
            if case["case"].number() >= 6 {
                assert_eq!(mac.err(), Some(Refusal::SecretSize));
            } else {
                let published = case[name].bytes();
                assert_eq!(mac.expect("a MAC")[..published.len()], published);
            }
        }
    }
}

/// The salt of case 2 is longer than a block, which is refused.
#[test]
fn rfc_5869() {
    for case in json::read("rfc5869").list() {
        let secret = case["PRK"].bytes();
        let extracted = extract(SHA256, &case["salt"].bytes(), &case["IKM"].bytes());
        if case["case"].number() == 2 {
            assert_eq!(extracted.err(), Some(Refusal::SecretSize));
        } else {
            assert_eq!(*extracted.expect("a secret"), secret);
        }
        let mut out = vec![0; case["L"].number()];
        assert_eq!(
            expand(SHA256, &secret, &case["info"].bytes(), &mut out),
            Ok(())
        );
        assert_eq!(out, case["OKM"].bytes());
    }
}

/// What is written into a buffer is the value, at its front, and nothing behind it changes.
#[test]
fn both_forms_agree() -> Result<(), Refusal> {
    for suite in Suite::ALL {
        let length = suite.hash_length();
        let secret = vec![3; length];
        let mut out = [0xa5; 50];
        assert_eq!(*hash_into(suite, b"abc", &mut out)?, *hash(suite, b"abc")?);
        assert_eq!(
            *hmac_into(suite, b"key", b"abc", &mut out)?,
            *hmac(suite, b"key", b"abc")?
        );
        assert_eq!(
            *extract_into(suite, b"salt", b"abc", &mut out)?,
            *extract(suite, b"salt", b"abc")?
        );
        assert_eq!(
            *derive_secret_into(suite, &secret, b"label", b"abc", &mut out)?,
            *derive_secret(suite, &secret, b"label", b"abc")?
        );
        assert!(out[length..].iter().all(|byte| *byte == 0xa5));
    }
    Ok(())
}
