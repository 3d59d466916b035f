//! The TLS 1.3 key schedule (RFC 8446, section 7) with the product's limits, refusals and journal.
//!
//! It is written a second time, in the plainest way, so that the proved program can be held against
//! it: a session keeps a book of the calls it took, with the plain transcript, and every secret is
//! worked out from that book by the RFC's diagram. Nothing here is hardened for real secrets.

pub mod book;
pub mod calls;
pub mod diagram;
pub mod hkdf;
pub mod hmac;
pub mod journal;
pub mod judge;
pub mod lower;
pub mod refusal;
pub mod replay;
pub mod session;
pub mod sha2;
pub mod suite;
pub mod transcript;
