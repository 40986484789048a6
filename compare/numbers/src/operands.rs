//! Operands that the Rust can hold.

use gensolid_core::{Precision, Tolerance};
use gensolid_geom::{Line, Plane};
use gensolid_math::exact::published;
use gensolid_math::{Frame, Interval, Point3, Vec3};

use crate::random::{Random, Style};

pub fn point(r: &mut Random, style: Style) -> Point3 {
    Point3::new(r.float(style), r.float(style), r.float(style))
}

pub fn finite_point(r: &mut Random, style: Style) -> Point3 {
    Point3::new(r.finite(style), r.finite(style), r.finite(style))
}

pub fn vector(r: &mut Random, style: Style) -> Vec3 {
    point(r, style).to_vec()
}

/// A second vector: of its own, or so related to the first that terms cancel.
pub fn vector_beside(r: &mut Random, v: Vec3, style: Style) -> Vec3 {
    match r.below(4) {
        0 => Vec3::new(r.near(v.x), r.near(v.y), r.near(v.z)),
        1 => v * r.finite(Style::Whole),
        2 => v.cross(vector(r, style)),
        _ => vector(r, style),
    }
}

/// Some floats from `p` in each coordinate.
pub fn moved(r: &mut Random, p: Point3) -> Point3 {
    Point3::new(r.moved(p.x), r.moved(p.y), r.moved(p.z))
}

pub fn interval(r: &mut Random, style: Style) -> Interval {
    let a = r.float(style);
    match r.below(12) {
        0 => Interval::point(a),
        1 => between(a, r.near(a)),
        2 => between(a, -a),
        3 => between(a, r.pick(&[0.0, -0.0])),
        4 => between(a, r.pick(&[f64::INFINITY, f64::NEG_INFINITY])),
        5 => {
            let bounds = [0.0, -0.0, f64::from_bits(1), -f64::from_bits(1)];
            between(r.pick(&bounds), r.pick(&bounds))
        }
        // The operands are the same by either rule of sums.
        6 => published(|| interval(r, style) + Interval::point(a)),
        7 => published(|| interval(r, style) - Interval::point(a)),
        8 => interval(r, style) * Interval::point(a),
        9 => interval(r, style).sqr(),
        _ => between(a, r.float(style)),
    }
}

/// A second interval: of its own, or so related to the first that bounds cancel.
pub fn interval_beside(r: &mut Random, a: Interval, style: Style) -> Interval {
    match r.below(6) {
        0 => a,
        1 => -a,
        2 => between(r.near(a.lo()), r.near(a.hi())),
        _ => interval(r, style),
    }
}

pub fn intervals(r: &mut Random, style: Style) -> [Interval; 3] {
    [(); 3].map(|()| interval(r, style))
}

/// The interval from the lesser to the greater; a NaN bounds nothing.
fn between(a: f64, b: f64) -> Interval {
    Interval::new(a, b)
        .or(Interval::new(b, a))
        .unwrap_or(Interval::ENTIRE)
}

/// The least precision that the Rust takes: whatever direction and normal it makes at another, it
/// makes at this one.
pub fn least_precision() -> Precision {
    Precision::new(f64::from_bits(1), Precision::DEFAULT.angular(), f64::MAX)
        .expect("a least precision")
}

pub fn precision(r: &mut Random) -> Precision {
    loop {
        let style = r.style();
        let linear = r.float(style).abs();
        if let Ok(precision) = Precision::new(linear, Precision::DEFAULT.angular(), f64::MAX) {
            return precision;
        }
    }
}

/// Made at the least precision, where it may be anything from zero to the greatest float, and
/// sometimes grown beyond, to infinity.
pub fn tolerance(r: &mut Random) -> Tolerance {
    loop {
        let style = r.style();
        let value = r.float(style);
        let Ok(tolerance) = Tolerance::new(value, &least_precision()) else {
            continue;
        };
        if !r.one_in(16) {
            return tolerance;
        }
        let amount = r.finite(Style::Huge).abs();
        return tolerance.widened(amount).expect("a finite growth");
    }
}

/// The same, mostly equal to the session's, some floats beside it, or a few times more or less.
pub fn tolerance_beside(r: &mut Random, session: f64) -> Tolerance {
    let value = match r.below(4) {
        0 => return tolerance(r),
        1 => session,
        2 => r.moved(session),
        _ => session * r.pick(&[0.0, -0.0, 0.25, 0.5, 2.0, 3.0]),
    };
    Tolerance::new(value, &least_precision()).unwrap_or_else(|_| tolerance(r))
}

pub fn line(r: &mut Random) -> Line {
    let style = r.style();
    line_from(r, style)
}

/// A line whose origin is of the style.
pub fn line_from(r: &mut Random, style: Style) -> Line {
    loop {
        let origin = finite_point(r, style);
        if let Ok(line) = Line::new(origin, axis(r), &least_precision()) {
            return line;
        }
    }
}

pub fn plane(r: &mut Random) -> Plane {
    let style = r.style();
    plane_from(r, style)
}

/// A plane whose origin is of the style.
pub fn plane_from(r: &mut Random, style: Style) -> Plane {
    loop {
        let origin = finite_point(r, style);
        if let Ok(frame) = Frame::from_axis(origin, axis(r), &least_precision()) {
            return Plane::new(frame);
        }
    }
}

/// What a line's direction or a plane's normal is made of.
fn axis(r: &mut Random) -> Vec3 {
    if r.one_in(4) {
        let sign = r.pick(&[1.0, -1.0]);
        return r.pick(&[Vec3::X, Vec3::Y, Vec3::Z]) * sign;
    }
    let style = r.style();
    vector(r, style)
}
