//! The published files of gensolid-core, unchanged, under the names that the other crates use. (Its
//! own lib.rs is not among them.) Each is skipped by rustfmt, which would write to it through the
//! link. The tolerance in effect goes by the version of `versions.rs`.

pub mod versions;

#[rustfmt::skip]
#[path = "../source/crates/gensolid-core/src/arena.rs"]
pub mod arena;
#[rustfmt::skip]
#[path = "../source/crates/gensolid-core/src/error.rs"]
pub mod error;
#[rustfmt::skip]
#[path = "../source/crates/gensolid-core/src/tolerance.rs"]
pub mod tolerance;

pub use arena::{Arena, Id};
pub use error::{Error, ErrorCode, Result};
pub use tolerance::{Precision, Tolerance};
pub use versions::{Version, effective_tolerance};
