//! The libraries `skogmund` and `unpacking` from Rust, and what they are compared with.
//!
//! - [`entries`]: a safe wrapper of the C entries;
//! - [`engines`]: the same of the unpacker's engines;
//! - [`lent`]: what tests lend to them, with a pattern in it and around it;
//! - [`reference`](mod@reference): document 01 in plain Rust, written from the document;
//! - [`generate`]: inputs, valid and damaged, from a seed;
//! - [`examples`]: the sections of document 01's examples;
//! - [`cases`]: the stored cases, which the program `cases` of this package writes.
//!
//! README.md beside it says how to run the tests, also under valgrind, and what they compare.

pub mod cases;
#[cfg(not(no_library))]
pub mod engines;
#[cfg(not(no_library))]
pub mod entries;
pub mod examples;
pub mod generate;
#[cfg(not(no_library))]
pub mod lent;
pub mod reference;
