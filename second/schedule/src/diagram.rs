//! The diagram of RFC 8446, 7.1: each secret worked out from the start by what the book holds.

use crate::book::{Book, Place, Point, PskKind, Side};
use crate::hkdf::{derive_secret, expand_label, extract};
use crate::hmac::hmac;
use crate::sha2::Hash;
use crate::transcript::Mark;

/// The value of a place that the book holds.
pub fn secret(book: &Book, hash: Hash, place: Place) -> Vec<u8> {
    match place {
        Place::Chain => chain(book, hash),
        Place::BinderKey => binder_key(book, hash),
        Place::ClientEarly => client_early_traffic_secret(book, hash),
        Place::EarlyExporter => early_exporter_master_secret(book, hash),
        Place::ClientHandshake => client_handshake_traffic_secret(book, hash),
        Place::ServerHandshake => server_handshake_traffic_secret(book, hash),
        Place::ClientApplication => client_application_traffic_secret(book, hash),
        Place::ServerApplication => server_application_traffic_secret(book, hash),
        Place::Exporter => exporter_master_secret(book, hash),
        Place::Resumption => resumption_master_secret(book, hash),
    }
}

/// The secret on the left of the diagram that the point has come to.
fn chain(book: &Book, hash: Hash) -> Vec<u8> {
    match book.point {
        Point::Early => early_secret(book, hash),
        Point::Handshake => handshake_secret(book, hash),
        _ => master_secret(book, hash),
    }
}

fn early_secret(book: &Book, hash: Hash) -> Vec<u8> {
    extract(hash, &zeros(hash), &or_zeros(hash, &book.psk))
}

fn binder_key(book: &Book, hash: Hash) -> Vec<u8> {
    let label: &[u8] = match book.psk_kind {
        PskKind::Resumption => b"res binder",
        _ => b"ext binder",
    };
    derive_secret(hash, &early_secret(book, hash), label, b"")
}

fn client_early_traffic_secret(book: &Book, hash: Hash) -> Vec<u8> {
    let messages = book.transcript.through(Mark::ClientHello);
    derive_secret(hash, &early_secret(book, hash), b"c e traffic", messages)
}

fn early_exporter_master_secret(book: &Book, hash: Hash) -> Vec<u8> {
    let messages = book.transcript.through(Mark::ClientHello);
    derive_secret(hash, &early_secret(book, hash), b"e exp master", messages)
}

fn handshake_secret(book: &Book, hash: Hash) -> Vec<u8> {
    let salt = derived(hash, &early_secret(book, hash));
    extract(hash, &salt, &or_zeros(hash, &book.shared_secret))
}

fn client_handshake_traffic_secret(book: &Book, hash: Hash) -> Vec<u8> {
    let messages = book.transcript.through(Mark::ServerHello);
    derive_secret(
        hash,
        &handshake_secret(book, hash),
        b"c hs traffic",
        messages,
    )
}

fn server_handshake_traffic_secret(book: &Book, hash: Hash) -> Vec<u8> {
    let messages = book.transcript.through(Mark::ServerHello);
    derive_secret(
        hash,
        &handshake_secret(book, hash),
        b"s hs traffic",
        messages,
    )
}

fn master_secret(book: &Book, hash: Hash) -> Vec<u8> {
    let salt = derived(hash, &handshake_secret(book, hash));
    extract(hash, &salt, &zeros(hash))
}

/// The client's secret after its updates.
fn client_application_traffic_secret(book: &Book, hash: Hash) -> Vec<u8> {
    let messages = book.transcript.through(Mark::ServerFinished);
    let first = derive_secret(hash, &master_secret(book, hash), b"c ap traffic", messages);
    updated(hash, first, book.updates[Side::Client as usize])
}

/// The server's secret after its updates.
fn server_application_traffic_secret(book: &Book, hash: Hash) -> Vec<u8> {
    let messages = book.transcript.through(Mark::ServerFinished);
    let first = derive_secret(hash, &master_secret(book, hash), b"s ap traffic", messages);
    updated(hash, first, book.updates[Side::Server as usize])
}

fn exporter_master_secret(book: &Book, hash: Hash) -> Vec<u8> {
    let messages = book.transcript.through(Mark::ServerFinished);
    derive_secret(hash, &master_secret(book, hash), b"exp master", messages)
}

fn resumption_master_secret(book: &Book, hash: Hash) -> Vec<u8> {
    let messages = book.transcript.through(Mark::ClientFinished);
    derive_secret(hash, &master_secret(book, hash), b"res master", messages)
}

/// The salt of the next Extract: no secret of the chain goes straight into the next.
fn derived(hash: Hash, secret: &[u8]) -> Vec<u8> {
    derive_secret(hash, secret, b"derived", b"")
}

fn updated(hash: Hash, first: Vec<u8>, times: u32) -> Vec<u8> {
    (0..times).fold(first, |secret, _| next_application_secret(hash, &secret))
}

/// RFC 8446, 7.2.
pub fn next_application_secret(hash: Hash, secret: &[u8]) -> Vec<u8> {
    expand_label(hash, secret, b"traffic upd", b"", hash.length())
}

/// RFC 8446, 7.3.
pub fn traffic_key(hash: Hash, secret: &[u8], length: usize) -> Vec<u8> {
    expand_label(hash, secret, b"key", b"", length)
}

/// RFC 8446, 7.3.
pub fn traffic_iv(hash: Hash, secret: &[u8], length: usize) -> Vec<u8> {
    expand_label(hash, secret, b"iv", b"", length)
}

/// RFC 8446, 4.4.4 and, under the binder key, 4.2.11.2.
pub fn finished(hash: Hash, base: &[u8], messages: &[u8]) -> Vec<u8> {
    let finished_key = expand_label(hash, base, b"finished", b"", hash.length());
    hmac(hash, &finished_key, &hash.digest(messages))
}

/// RFC 8446, 7.5.
pub fn export(hash: Hash, secret: &[u8], label: &[u8], context: &[u8], length: usize) -> Vec<u8> {
    let inner = derive_secret(hash, secret, label, b"");
    expand_label(hash, &inner, b"exporter", &hash.digest(context), length)
}

/// RFC 8446, 7.1: a missing secret is H zero bytes, and no round is skipped.
fn or_zeros(hash: Hash, secret: &[u8]) -> Vec<u8> {
    if secret.is_empty() {
        zeros(hash)
    } else {
        secret.to_vec()
    }
}

fn zeros(hash: Hash) -> Vec<u8> {
    vec![0; hash.length()]
}
