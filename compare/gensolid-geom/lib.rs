//! The published files of gensolid-geom, unchanged (so that rustfmt skips them), and stand-ins for the
//! two that are not published, nurbs.rs and project.rs.

#[rustfmt::skip]
#[path = "../source/crates/gensolid-geom/src/curve.rs"]
pub mod curve;
pub mod nurbs;
#[rustfmt::skip]
#[path = "../source/crates/gensolid-geom/src/param.rs"]
pub mod param;
mod project;
#[rustfmt::skip]
#[path = "../source/crates/gensolid-geom/src/store.rs"]
pub mod store;
#[rustfmt::skip]
#[path = "../source/crates/gensolid-geom/src/surface.rs"]
pub mod surface;

pub use curve::*;
pub use nurbs::{BCurve, BSurface};
pub use param::ParamRange;
pub use store::*;
pub use surface::*;
