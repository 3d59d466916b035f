//! The published vectors, from the files of the repository's `vectors` directory.

mod hashes;
mod json;
mod key_derivation;
mod retry;
mod traces;
