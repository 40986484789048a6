//! Stands in for project.rs, the numerical search for a closest point: store.rs calls it for curves
//! and surfaces that no comparison asks about.

use gensolid_core::{Precision, Result};
use gensolid_math::Point3;

use crate::curve::CurveDerivs;
use crate::param::ParamRange;
use crate::store::{CurveProjection, SurfaceProjection};
use crate::surface::SurfaceDerivs;

pub fn closest_on_curve(
    _: impl Fn(f64) -> CurveDerivs,
    _: ParamRange,
    _: Point3,
    _: &Precision,
) -> Result<CurveProjection> {
    unreachable!("no comparison searches a curve")
}

pub fn closest_on_spline(
    _: impl Fn(f64) -> CurveDerivs,
    _: ParamRange,
    _: &[f64],
    _: Point3,
    _: &Precision,
) -> Result<CurveProjection> {
    unreachable!("no comparison searches a spline")
}

pub fn closest_on_spline_patch(
    _: impl Fn(f64, f64) -> SurfaceDerivs,
    _: (ParamRange, ParamRange),
    _: (&[f64], &[f64]),
    _: Point3,
    _: &Precision,
) -> Result<SurfaceProjection> {
    unreachable!("no comparison searches a surface")
}
