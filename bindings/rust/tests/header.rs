//! The crate and the C header say the same: every declaration, and every number.

use bindcricket::journal::Record;
use bindcricket::{Exporter, Group, KeyName, Refusal, Side, Suite};

const HEADER: &str = include_str!("../../../include/bindcricket.h");
const DECLARATIONS: &str = include_str!("../src/sys/c.rs");

/// The type in Rust of a parameter in C, and its name.
fn parameter(c: &str) -> String {
    let (kind, name) = c.rsplit_once([' ', '*']).expect("a type and a name");
    let pointer = c.contains('*');
    let (constant, kind) = match kind.trim_end_matches(['*', ' ']).strip_prefix("const ") {
        Some(kind) => (true, kind),
        None => (false, kind.trim_end_matches(['*', ' '])),
    };
    let kind = match kind {
        "uint8_t" => "u8",
        "uint16_t" => "u16",
        "size_t" => "usize",
        _ => panic!("no type for {c}"),
    };
    match (pointer, constant) {
        (false, _) => format!("{name}: {kind}"),
        (true, true) => format!("{name}: *const {kind}"),
        (true, false) => format!("{name}: *mut {kind}"),
    }
}

/// The functions that the header declares, as Rust declares them.
fn from_header() -> Vec<String> {
    let text = HEADER.split_whitespace().collect::<Vec<_>>().join(" ");
    let functions = text.split("uint8_t bindcricket_").skip(1);
    functions
        .map(|function| {
            let (name, rest) = function.split_once('(').expect("a list of parameters");
            let (list, _) = rest.split_once(");").expect("the end of the list");
            let parameters: Vec<String> = list.split(", ").map(parameter).collect();
            format!("fn bindcricket_{name}({}) -> u8", parameters.join(", "))
        })
        .collect()
}

/// The functions that the crate declares, each in one line.
fn from_crate() -> Vec<String> {
    let text = DECLARATIONS
        .split_whitespace()
        .collect::<Vec<_>>()
        .join(" ");
    let functions = text.split("pub(super) ").skip(1);
    functions
        .map(|function| {
            let (function, _) = function.split_once(';').expect("the end of a declaration");
            function.replace("( ", "(").replace(", )", ")")
        })
        .collect()
}

#[test]
fn declarations() {
    assert_eq!(from_crate(), from_header());
    assert_eq!(from_header().len(), 22);
}

/// The number of a constant in the header.
fn number(name: &str) -> u16 {
    let constant = format!("BINDCRICKET_{name} ");
    let mut behind = HEADER.split(&constant).skip(1);
    behind
        .find_map(|rest| {
            let value = rest.trim_start_matches(['=', ' ']);
            let end = value.find(|c: char| !c.is_ascii_alphanumeric())?;
            match value[..end].strip_prefix("0x") {
                Some(digits) => u16::from_str_radix(digits, 16).ok(),
                None => value[..end].parse().ok(),
            }
        })
        .unwrap_or_else(|| panic!("no number for {name}"))
}

#[test]
fn numbers() {
    for (name, suite) in [
        ("AES_128_GCM_SHA256", Suite::Aes128GcmSha256),
        ("AES_256_GCM_SHA384", Suite::Aes256GcmSha384),
        ("CHACHA20_POLY1305_SHA256", Suite::Chacha20Poly1305Sha256),
        ("AES_128_CCM_SHA256", Suite::Aes128CcmSha256),
        ("AES_128_CCM_8_SHA256", Suite::Aes128Ccm8Sha256),
    ] {
        assert_eq!(number(name), suite.number(), "{name}");
    }
    for (name, group) in [
        ("NO_GROUP", Group::None),
        ("SECP256R1", Group::Secp256r1),
        ("SECP384R1", Group::Secp384r1),
        ("SECP521R1", Group::Secp521r1),
        ("X25519", Group::X25519),
        ("X448", Group::X448),
        ("FFDHE2048", Group::Ffdhe2048),
        ("FFDHE3072", Group::Ffdhe3072),
        ("FFDHE4096", Group::Ffdhe4096),
        ("FFDHE6144", Group::Ffdhe6144),
        ("FFDHE8192", Group::Ffdhe8192),
    ] {
        assert_eq!(number(name), group.number(), "{name}");
    }
    for (name, refusal) in [
        ("NOT_ALLOWED_HERE", Refusal::NotAllowedHere),
        ("UNKNOWN", Refusal::Unknown),
        ("NOT_HELD", Refusal::NotHeld),
        ("SECRET_SIZE", Refusal::SecretSize),
        ("ZERO_SHARED_SECRET", Refusal::ZeroSharedSecret),
        ("NO_SECRET", Refusal::NoSecret),
        ("MESSAGE_LENGTH", Refusal::MessageLength),
        ("MESSAGE_TYPE", Refusal::MessageType),
        ("INPUT_TOO_LONG", Refusal::InputTooLong),
        ("OUT_OF_RANGE", Refusal::OutOfRange),
        ("OUTPUT_TOO_SHORT", Refusal::OutputTooShort),
        ("TOO_MANY_UPDATES", Refusal::TooManyUpdates),
        ("DAMAGED_RECORD", Refusal::DamagedRecord),
    ] {
        assert_eq!(number(name), u16::from(refusal.number()), "{name}");
    }
    for (name, value) in [
        ("CLIENT", Side::Client as u16),
        ("SERVER", Side::Server as u16),
        ("CLIENT_EARLY", KeyName::ClientEarly as u16),
        ("CLIENT_HANDSHAKE", KeyName::ClientHandshake as u16),
        ("SERVER_HANDSHAKE", KeyName::ServerHandshake as u16),
        ("CLIENT_APPLICATION", KeyName::ClientApplication as u16),
        ("SERVER_APPLICATION", KeyName::ServerApplication as u16),
        ("EXPORTER_EARLY", Exporter::Early as u16),
        ("EXPORTER", Exporter::Regular as u16),
        ("SESSION_BYTES", 696),
        ("RECORD_NONE", 0),
    ] {
        assert_eq!(number(name), value, "{name}");
    }
}

/// The kinds of records, as they are written.
#[test]
fn kinds() -> Result<(), Refusal> {
    let (suite, kind, psk) = (0x1301, 0, &[][..]);
    let (group, secret) = (0, &[][..]);
    for (name, record) in [
        ("BEGIN", Record::Begin { suite, kind, psk }),
        ("FEED", Record::Feed(&[])),
        ("EARLY", Record::Early),
        ("HANDSHAKE", Record::Handshake { group, secret }),
        ("APPLICATION", Record::Application),
        ("COMPLETE", Record::Complete),
        ("UPDATE", Record::Update { side: 1 }),
        ("CLOSE", Record::Close),
    ] {
        let mut out = [0; 9];
        let written = record.write(&mut out)?;
        let kind = u16::from_le_bytes([written[4], written[5]]);
        assert_eq!(number(&format!("RECORD_{name}")), kind, "{name}");
    }
    Ok(())
}
