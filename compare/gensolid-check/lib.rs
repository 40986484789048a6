//! The published gensolid-check, unchanged (so that rustfmt skips it).

#[rustfmt::skip]
#[path = "../source/crates/gensolid-check/src/lib.rs"]
mod source;

pub use source::*;
