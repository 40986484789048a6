//! The published files of gensolid-math, unchanged (so that rustfmt skips them), under the names that
//! the other crates use.

pub mod exact;

#[rustfmt::skip]
#[path = "../source/crates/gensolid-math/src/bbox.rs"]
pub mod bbox;
#[rustfmt::skip]
#[path = "../source/crates/gensolid-math/src/frame.rs"]
pub mod frame;
#[rustfmt::skip]
#[path = "../source/crates/gensolid-math/src/interval.rs"]
pub mod published;
#[rustfmt::skip]
#[path = "../source/crates/gensolid-math/src/predicates.rs"]
pub mod predicates;
#[rustfmt::skip]
#[path = "../source/crates/gensolid-math/src/vector.rs"]
pub mod vector;

pub use bbox::Aabb;
pub use frame::Frame;
pub use exact::Interval;
pub use vector::{Point2, Point3, Vec2, Vec3};

/// The crate's own lib.rs, which defines this, is not among the published files; interval.rs and
/// euler.rs show its three cases.
#[derive(Clone, Copy, Debug, PartialEq, Eq)]
pub enum Sign {
    Negative,
    Zero,
    Positive,
}
