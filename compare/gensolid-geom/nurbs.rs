//! Stands in for nurbs.rs: the sources name these types, and nothing here evaluates a value of them. A
//! curve can be made, so that a fin can have a pcurve, of which a split reads only that it is there.

use crate::curve::CurveDerivs;
use crate::param::ParamRange;
use crate::surface::SurfaceDerivs;

#[derive(Clone, Debug, PartialEq)]
pub struct BCurve;

impl BCurve {
    pub fn eval(&self, _t: f64) -> CurveDerivs {
        unreachable!("no comparison evaluates a spline")
    }

    pub fn range(&self) -> ParamRange {
        unreachable!("no comparison evaluates a spline")
    }

    pub fn knots(&self) -> &[f64] {
        unreachable!("no comparison evaluates a spline")
    }
}

#[derive(Clone, Debug, PartialEq)]
pub enum BSurface {}

impl BSurface {
    pub fn eval(&self, _u: f64, _v: f64) -> SurfaceDerivs {
        match *self {}
    }

    pub fn ranges(&self) -> (ParamRange, ParamRange) {
        match *self {}
    }

    pub fn knots(&self) -> (&[f64], &[f64]) {
        match *self {}
    }
}
