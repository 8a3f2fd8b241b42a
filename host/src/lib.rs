//! The calls of the archive from Rust, an independent implementation of the same rules, and what the tests and benchmarks share.

pub mod answers;
pub mod calls;
pub mod case;
pub mod counts;
mod ffi;
pub mod generate;
pub mod guarded;
pub mod meaning;
#[cfg(peer)]
pub mod peer;
pub mod random;
pub mod recorded;
pub mod reference;
pub mod refusal;
pub mod samples;
pub mod socket;
pub mod text;
