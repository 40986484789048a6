//! The published files of gensolid-topo, unchanged (so that rustfmt skips them), under the names that
//! gensolid-check uses.

#[rustfmt::skip]
#[path = "../source/crates/gensolid-topo/src/entity.rs"]
pub mod entity;
#[rustfmt::skip]
#[path = "../source/crates/gensolid-topo/src/euler.rs"]
pub mod euler;
#[rustfmt::skip]
#[path = "../source/crates/gensolid-topo/src/extrusion.rs"]
pub mod extrusion;
#[rustfmt::skip]
#[path = "../source/crates/gensolid-topo/src/inquire.rs"]
pub mod inquire;
#[rustfmt::skip]
#[path = "../source/crates/gensolid-topo/src/model.rs"]
pub mod model;
#[rustfmt::skip]
#[path = "../source/crates/gensolid-topo/src/polyhedron.rs"]
pub mod polyhedron;

pub use entity::*;
pub use euler::{EdgeSplit, edge_parameter_bounds, split_line_edge};
pub use inquire::{body_bounding_box, body_volume};
pub use model::{FinGeometry, Model, RawEditor};
pub use polyhedron::make_convex_polyhedron;

/// Not in the source: lets the comparison call `vector` and `dot` of polyhedron.rs, which are
/// visible only within this crate.
pub mod intervals {
    use gensolid_math::{Interval, Point3};

    use crate::polyhedron;

    pub fn vector(point: Point3, origin: Point3) -> [Interval; 3] {
        polyhedron::vector(point, origin)
    }

    pub fn dot(a: [Interval; 3], b: [Interval; 3]) -> Interval {
        polyhedron::dot(a, b)
    }
}
