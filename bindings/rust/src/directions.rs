//! The directions of lines and the normals of planes, as the Rust makes them: `normalized` of its vector.rs, `Line::new` and
//! `Line::through` of curve.rs, `Frame::new` of frame.rs, and the planes of polyhedron.rs. The same operations in the same order, so that
//! the bits are the same wherever `hypot` is; `compare/run carriers` holds them against the Rust.

use crate::Refusal;

pub(crate) type Triple = [f64; 3];

/// The Rust's angular precision, which the station does not carry: directions that are nearer to parallel span no plane.
const ANGULAR: f64 = 1.0e-11;

fn minus(a: Triple, b: Triple) -> Triple {
    [a[0] - b[0], a[1] - b[1], a[2] - b[2]]
}

fn cross(a: Triple, b: Triple) -> Triple {
    [a[1] * b[2] - a[2] * b[1], a[2] * b[0] - a[0] * b[2], a[0] * b[1] - a[1] * b[0]]
}

/// The direction of a vector, unless it is not longer than the least length.
fn unit(v: Triple, least: f64) -> Result<Triple, Refusal> {
    let length = v[0].hypot(v[1]).hypot(v[2]);
    if length.is_finite() && length > least {
        Ok(v.map(|x| x / length))
    } else {
        Err(Refusal::Degenerate)
    }
}

fn tested(points: &[Triple], precision: f64) -> Result<(), Refusal> {
    if precision.is_finite() && precision > 0.0 && points.iter().flatten().all(|x| x.is_finite()) {
        Ok(())
    } else {
        Err(Refusal::BadArgument)
    }
}

/// The direction of a line, or the normal of a plane, with this origin: 1 where the origin or the precision is none, 4 where the way is
/// not longer than the precision.
pub(crate) fn along(origin: Triple, way: Triple, precision: f64) -> Result<Triple, Refusal> {
    tested(&[origin], precision)?;
    unit(way, precision)
}

/// The direction of the line from a to b.
pub(crate) fn through(a: Triple, b: Triple, precision: f64) -> Result<Triple, Refusal> {
    along(a, minus(b, a), precision)
}

/// The normal of the plane through three points, which run anticlockwise as seen from its tip: 1 where one of them or the precision is
/// none, 4 where another lies too near the first, or the ways to both are nearly parallel.
pub(crate) fn spanned([a, b, c]: [Triple; 3], precision: f64) -> Result<Triple, Refusal> {
    tested(&[a, b, c], precision)?;
    let first = unit(minus(b, a), precision)?;
    let second = unit(minus(c, a), precision)?;
    // Made once by polyhedron.rs, and of that once more by its frame.
    unit(unit(cross(first, second), ANGULAR)?, 0.0)
}
