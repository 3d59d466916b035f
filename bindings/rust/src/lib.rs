//! The key schedule of TLS 1.3 (RFC 8446, section 7): secrets, traffic keys, Finished values, PSK
//! binders, exporters and key updates. This crate is a safe wrapper of Bindcricket, a library that
//! is proved to compute what the RFC says; the wrapper itself is tested and not proved.
//!
//! It does no I/O, no key exchange, no record protection and no parsing: a TLS stack feeds it the
//! handshake messages as they are sent and received, and the shared secret of its key exchange.
//!
//! # A handshake
//!
//! Both sides make the same calls; here it is the client, with made-up messages.
//!
//! ```
//! use bindcricket::{Exporter, Group, KeyName, Psk, Refusal, Session, Side, Suite, Verdict};
//!
//! /// A handshake message: its type, three bytes of length, and its body.
//! fn message(kind: u8, body: &[u8]) -> Vec<u8> {
//!     let length = (body.len() as u32).to_be_bytes();
//!     [&[kind], &length[1..], body].concat()
//! }
//!
//! # fn main() -> Result<(), Refusal> {
//! let mut session = Session::new();
//! session.begin(Suite::Aes128GcmSha256, Psk::None)?;
//! session.feed(&message(1, b"ClientHello"))?;
//! session.feed(&message(2, b"ServerHello"))?;
//!
//! let shared_secret = [7; 32]; // of the key exchange
//! session.handshake(Group::X25519, &shared_secret)?;
//! let server = session.keys(KeyName::ServerHandshake)?;
//! assert_eq!((server.key().len(), server.iv().len()), (16, 12));
//!
//! session.feed(&message(8, b"EncryptedExtensions"))?;
//! session.feed(&message(11, b"Certificate"))?;
//! session.feed(&message(15, b"CertificateVerify"))?;
//! # let received = session.finished(Side::Server)?.to_vec();
//! // `received`: the body of the server's Finished
//! assert_eq!(session.check(Side::Server, &received)?, Verdict::Matches);
//! session.feed(&message(20, &received))?;
//! session.application()?;
//!
//! let verify_data = session.finished(Side::Client)?;
//! session.feed(&message(20, &verify_data))?;
//! session.complete()?;
//!
//! let before = session.keys(KeyName::ClientApplication)?;
//! session.update(Side::Client)?;
//! let after = session.keys(KeyName::ClientApplication)?;
//! assert_ne!(before.key(), after.key());
//!
//! let mut keying_material = [0; 32];
//! session.export(Exporter::Regular, b"EXPORTER-example", b"context", &mut keying_material)?;
//! # assert_ne!(keying_material, [0; 32]);
//! # Ok(())
//! # }
//! ```
//!
//! # Refusals
//!
//! A call that cannot be made answers a [`Refusal`] and changes nothing, so the session can go on:
//!
//! ```
//! use bindcricket::{Group, Psk, Refusal, Session, Suite};
//!
//! # fn main() -> Result<(), Refusal> {
//! let mut session = Session::new();
//! session.begin(Suite::Chacha20Poly1305Sha256, Psk::External(b"agreed before"))?;
//! session.feed(&[1, 0, 0, 0])?;
//! session.feed(&[2, 0, 0, 0])?;
//!
//! match session.handshake(Group::X25519, &[0; 32]) {
//!     Err(refusal @ Refusal::ZeroSharedSecret) => eprintln!("aborting the handshake: {refusal}"),
//!     Err(refusal) => return Err(refusal),
//!     Ok(()) => unreachable!("a shared secret of zeros is never taken"),
//! }
//! # assert_eq!(session.handshake(Group::X25519, &[1; 32]), Ok(()));
//! # Ok(())
//! # }
//! ```
//!
//! # The journal
//!
//! The calls of a session can be written as bytes and read back: see [`journal`].
//!
//! # Secrets in memory
//!
//! A [`Session`] and the values that it hands out ([`TrafficKeys`], [`HashValue`]) lie on the heap,
//! are wiped when they are dropped, and show nothing with `{:?}`. After every call the stack below
//! it is cleared, [`STACK_BYTES`] deep. What the caller copies, lends (PSKs, shared secrets) or has
//! written to its own buffers is the caller's to wipe; registers are not cleared.

#![no_std]
#![deny(missing_docs, unsafe_code, unsafe_op_in_unsafe_fn)]

extern crate alloc;

pub mod journal;
mod lower;
mod names;
mod refusal;
mod secret;
mod session;
#[allow(unsafe_code)]
mod sys;

pub use lower::{
    derive_secret, derive_secret_into, expand, expand_label, extract, extract_into, hash,
    hash_into, hmac, hmac_into,
};
pub use names::{Exporter, Group, KeyName, Psk, Side, Suite};
pub use refusal::Refusal;
pub use secret::{HashValue, TrafficKeys, IV_BYTES};
pub use session::{Session, Verdict};
pub use sys::STACK_BYTES;
