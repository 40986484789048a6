//! What the Rust answers, by its own functions. Their numbers are those of the probe.

use gensolid_core::versions::by;
use gensolid_core::{Error, Version, effective_tolerance};
use gensolid_geom::{Circle, Curve, CurveId, GeomStore, Line, Plane, Sphere, Surface, SurfaceId};
use gensolid_math::{Frame, Interval, Point3, Sign, Vec3};
use gensolid_topo::intervals::{dot, vector};

use crate::operands;
use crate::random::{Random, Style};
use crate::{Answer, By, Kind, Operation, Row};

pub const OPERATIONS: [Operation; 35] = [
    values("f64::next_up", 1, |r| of_float(r, f64::next_up)),
    values("f64::next_down", 1, |r| of_float(r, f64::next_down)),
    values("Interval::point", 1, interval_point),
    values("Interval add", 4, |r| of_intervals(r, |a, b| a + b)),
    values("Interval sub", 4, |r| of_intervals(r, |a, b| a - b)),
    values("Interval mul", 4, |r| of_intervals(r, |a, b| a * b)),
    values("Interval neg", 2, |r| of_interval(r, |a| bounds(-a))),
    values("Interval::sqr", 2, |r| of_interval(r, |a| bounds(a.sqr()))),
    truth("Interval::contains", 3, contains),
    Operation {
        numbers: &[0, 1, 2, 3],
        ..sign("Interval::sign", 2, |r| {
            of_interval(r, |a| signed(a.sign()))
        })
    },
    truth("f64::is_finite", 1, is_finite),
    values("Point3 - Point3", 6, |r| {
        of_vectors(r, |a, b| Point3::from_vec(a) - Point3::from_vec(b))
    }),
    values("Point3 + Vec3", 6, |r| {
        of_vectors(r, |a, b| (Point3::from_vec(a) + b).to_vec())
    }),
    values("Vec3 + Vec3", 6, |r| of_vectors(r, |a, b| a + b)),
    values("Vec3 - Vec3", 6, |r| of_vectors(r, |a, b| a - b)),
    values("Vec3 * f64", 4, scaled),
    values("Vec3::dot", 6, float_dot),
    values("Vec3::cross", 6, |r| of_vectors(r, Vec3::cross)),
    truth("Point3::is_finite", 3, point_is_finite),
    values("Vec3 as intervals", 3, points3),
    values("polyhedron::vector", 6, interval_vector),
    values("polyhedron::dot", 12, interval_dot),
    values("Line::eval", 7, line_eval),
    values("Line::closest_param", 9, closest_param),
    values("Plane::distance", 9, plane_distance),
    values("effective_tolerance", 3, tolerance_in_effect),
    refusal("eval_curve", 7, eval_curve),
    refusal("project_to_curve", 9, project_to_curve),
    refusal("distance_to_surface", 9, distance_to_surface),
    sign("increasing sign", 9, increasing),
    Operation {
        numbers: &[0, 1, 2, 3],
        ..sign("span sign", 2, span)
    },
    sign("apart sign", 7, apart),
    sign("off plane sign", 10, off_plane),
    sign("off curve sign", 8, off_curve),
    values("tolerance, version 2", 3, tolerance_of_version_2),
];

type Make = fn(&mut Random) -> Row;

const fn values(name: &'static str, reads: usize, make: Make) -> Operation {
    Operation {
        name,
        reads,
        kind: Kind::Values,
        numbers: &[0],
        make,
    }
}

const fn truth(name: &'static str, reads: usize, make: Make) -> Operation {
    Operation {
        name,
        reads,
        kind: Kind::Truth,
        numbers: &[0, 1],
        make,
    }
}

/// The sign tests but one take products, which move their two bounds apart: never both to zero.
const fn sign(name: &'static str, reads: usize, make: Make) -> Operation {
    Operation {
        name,
        reads,
        kind: Kind::Sign,
        numbers: &[0, 2, 3],
        make,
    }
}

const fn refusal(name: &'static str, reads: usize, make: Make) -> Operation {
    Operation {
        name,
        reads,
        kind: Kind::Refusal,
        numbers: &[0, 1, 2, 4],
        make,
    }
}

fn padded<const N: usize>(floats: &[f64]) -> [f64; N] {
    let mut all = [0.0; N];
    all[..floats.len()].copy_from_slice(floats);
    all
}

fn row(operands: &[f64], answer: Answer) -> Row {
    Row {
        operands: padded(operands),
        answer,
        by: By::Rust,
        was: None,
    }
}

fn numbered(number: u32) -> Answer {
    Answer {
        number,
        values: [0.0; 6],
    }
}

fn valued(values: &[f64]) -> Answer {
    Answer {
        number: 0,
        values: padded(values),
    }
}

fn bounds(i: Interval) -> Answer {
    valued(&[i.lo(), i.hi()])
}

fn signed(sign: Option<Sign>) -> Answer {
    numbered(match sign {
        Some(Sign::Negative) => 0,
        Some(Sign::Zero) => 1,
        Some(Sign::Positive) => 2,
        None => 3,
    })
}

fn refused(error: &Error) -> Answer {
    numbered(error.code() as u32)
}

fn three(p: Point3) -> [f64; 3] {
    [p.x, p.y, p.z]
}

fn three_of(v: Vec3) -> [f64; 3] {
    [v.x, v.y, v.z]
}

fn six(a: Point3, b: Vec3) -> [f64; 6] {
    [a.x, a.y, a.z, b.x, b.y, b.z]
}

fn flat(v: [Interval; 3]) -> [f64; 6] {
    [
        v[0].lo(),
        v[0].hi(),
        v[1].lo(),
        v[1].hi(),
        v[2].lo(),
        v[2].hi(),
    ]
}

/// As euler.rs makes a direction and a normal into intervals: lines 51 to 55 and 144 to 148.
fn points(v: Vec3) -> [Interval; 3] {
    [
        Interval::point(v.x),
        Interval::point(v.y),
        Interval::point(v.z),
    ]
}

// Floats and intervals.

fn any_float(r: &mut Random) -> f64 {
    let style = r.style();
    r.float(style)
}

fn of_float(r: &mut Random, f: impl Fn(f64) -> f64) -> Row {
    let x = any_float(r);
    row(&[x], valued(&[f(x)]))
}

fn is_finite(r: &mut Random) -> Row {
    let x = any_float(r);
    row(&[x], numbered(x.is_finite().into()))
}

fn interval_point(r: &mut Random) -> Row {
    let x = any_float(r);
    row(&[x], bounds(Interval::point(x)))
}

fn of_interval(r: &mut Random, f: impl Fn(Interval) -> Answer) -> Row {
    let style = r.style();
    let a = operands::interval(r, style);
    row(&[a.lo(), a.hi()], f(a))
}

fn of_intervals(r: &mut Random, f: impl Fn(Interval, Interval) -> Interval) -> Row {
    let style = r.style();
    let a = operands::interval(r, style);
    let b = operands::interval_beside(r, a, style);
    row(&[a.lo(), a.hi(), b.lo(), b.hi()], bounds(f(a, b)))
}

fn contains(r: &mut Random) -> Row {
    let style = r.style();
    let a = operands::interval(r, style);
    let x = match r.below(4) {
        0 => r.moved(a.lo()),
        1 => r.moved(a.hi()),
        2 => a.lo() * 0.5 + a.hi() * 0.5,
        _ => r.float(style),
    };
    row(&[a.lo(), a.hi(), x], numbered(a.contains(x).into()))
}

// Points and vectors.

fn two_vectors(r: &mut Random) -> (Vec3, Vec3) {
    let style = r.style();
    let a = operands::vector(r, style);
    (a, operands::vector_beside(r, a, style))
}

fn of_vectors(r: &mut Random, f: impl Fn(Vec3, Vec3) -> Vec3) -> Row {
    let (a, b) = two_vectors(r);
    row(&six(Point3::from_vec(a), b), valued(&three_of(f(a, b))))
}

fn float_dot(r: &mut Random) -> Row {
    let (a, b) = two_vectors(r);
    row(&six(Point3::from_vec(a), b), valued(&[a.dot(b)]))
}

fn scaled(r: &mut Random) -> Row {
    let style = r.style();
    let v = operands::vector(r, style);
    let s = r.float(style);
    row(&[v.x, v.y, v.z, s], valued(&three_of(v * s)))
}

fn point_is_finite(r: &mut Random) -> Row {
    let style = r.style();
    let p = operands::point(r, style);
    row(&three(p), numbered(p.is_finite().into()))
}

fn points3(r: &mut Random) -> Row {
    let style = r.style();
    let v = operands::vector(r, style);
    row(&three_of(v), valued(&flat(points(v))))
}

fn interval_vector(r: &mut Random) -> Row {
    let (a, b) = two_vectors(r);
    let (p, q) = (Point3::from_vec(a), Point3::from_vec(b));
    row(&six(p, b), valued(&flat(vector(p, q))))
}

fn interval_dot(r: &mut Random) -> Row {
    let style = r.style();
    let a = operands::intervals(r, style);
    let b = match r.below(3) {
        0 => a.map(|i| operands::interval_beside(r, i, style)),
        // Terms that cancel.
        1 => [a[1], -a[0], Interval::point(0.0)],
        _ => operands::intervals(r, style),
    };
    row(&[flat(a), flat(b)].concat(), bounds(dot(a, b)))
}

// Lines, planes and tolerances.

fn line_and_parameter(r: &mut Random) -> (Line, f64) {
    if r.one_in(16) {
        // Where the point may be beyond the greatest float.
        return (operands::line_from(r, Style::Huge), r.float(Style::Huge));
    }
    let line = operands::line(r);
    let t = match r.below(8) {
        // Back to the plane x = 0, where a coordinate cancels.
        0 => r.moved(-line.origin().x / line.direction().x),
        _ => any_float(r),
    };
    (line, t)
}

fn line_and_point(r: &mut Random) -> (Line, Point3) {
    let (line, t) = line_and_parameter(r);
    let p = match r.below(4) {
        0 => operands::moved(r, line.eval(t).point),
        1 => {
            let style = r.plain_style();
            line.eval(t).point + line.direction().cross(operands::vector(r, style))
        }
        _ => {
            let style = r.style();
            operands::point(r, style)
        }
    };
    (line, p)
}

fn plane_and_point(r: &mut Random) -> (Plane, Point3) {
    if r.one_in(16) {
        // Where the distance may be beyond the greatest float.
        let plane = operands::plane_from(r, Style::Huge);
        return (plane, operands::finite_point(r, Style::Huge));
    }
    let plane = operands::plane(r);
    let p = match r.below(3) {
        0 => {
            let style = r.plain_style();
            let on = plane.eval(r.float(style), r.float(style)).point;
            operands::moved(r, on)
        }
        1 => {
            let style = r.plain_style();
            plane.frame().to_world(operands::vector(r, style))
        }
        _ => {
            let style = r.style();
            operands::point(r, style)
        }
    };
    (plane, p)
}

fn line_eval(r: &mut Random) -> Row {
    let (line, t) = line_and_parameter(r);
    let operands = [&six(line.origin(), line.direction())[..], &[t]].concat();
    row(&operands, valued(&three(line.eval(t).point)))
}

fn closest_param(r: &mut Random) -> Row {
    let (line, p) = line_and_point(r);
    let operands = [&six(line.origin(), line.direction())[..], &three(p)].concat();
    row(&operands, valued(&[line.closest_param(p)]))
}

/// `Plane::distance` is private. The store gives it, and where the store refuses, its one line
/// (surface.rs, 63) does.
fn plane_distance(r: &mut Random) -> Row {
    let (plane, p) = plane_and_point(r);
    let frame = plane.frame();
    let (store, id) = with_surface(Surface::Plane(plane));
    let distance = store
        .distance_to_surface(id, p, &operands::least_precision())
        .unwrap_or_else(|_| frame.to_local(p).z.abs());
    let operands = [&six(frame.origin(), frame.z())[..], &three(p)].concat();
    row(&operands, valued(&[distance]))
}

fn tolerance_in_effect(r: &mut Random) -> Row {
    let local = r.one_in(2).then(|| operands::tolerance(r));
    let precision = operands::precision(r);
    let (own, value) = match local {
        Some(tolerance) => (1.0, tolerance.value()),
        None => (0.0, any_float(r)),
    };
    row(
        &[own, value, precision.linear()],
        valued(&[effective_tolerance(local, &precision)]),
    )
}

/// W-211's rule; own tolerances also at the session's, beside it and near it.
fn tolerance_of_version_2(r: &mut Random) -> Row {
    let precision = operands::precision(r);
    let local = (!r.one_in(4)).then(|| operands::tolerance_beside(r, precision.default_local()));
    let (own, value) = match local {
        Some(tolerance) => (r.pick(&[1.0, 1.0, -1.0, f64::NAN]), tolerance.value()),
        None => (r.pick(&[0.0, -0.0]), any_float(r)),
    };
    let answer = by(Version::Second, || effective_tolerance(local, &precision));
    row(&[own, value, precision.linear()], valued(&[answer]))
}

// The store's queries.

/// What lies under the id that a query asks for, by the probe's number for it.
#[derive(Clone, Copy, PartialEq)]
enum Held {
    Missing = 0,
    Line = 1,
    Plane = 2,
    Other = 3,
}

fn held(r: &mut Random, usual: Held) -> Held {
    match r.below(16) {
        0 | 1 => Held::Missing,
        2 => Held::Other,
        // The Rust's types have no plane among the curves and no line among the surfaces.
        3 if usual == Held::Line => Held::Plane,
        3 => Held::Line,
        _ => usual,
    }
}

fn with_curve(curve: Curve) -> (GeomStore, CurveId) {
    let mut store = GeomStore::new();
    let id = store.add_curve(curve).expect("room for a curve");
    (store, id)
}

fn with_surface(surface: Surface) -> (GeomStore, SurfaceId) {
    let mut store = GeomStore::new();
    let id = store.add_surface(surface).expect("room for a surface");
    (store, id)
}

/// A store of one circle, which stands for what is no line until the tests of number and record
/// are made.
fn with_circle() -> (GeomStore, CurveId) {
    let circle = Circle::new(Frame::WORLD, 1.0, &operands::least_precision());
    with_curve(Curve::Circle(circle.expect("a circle")))
}

/// The same with a sphere, for what is no plane.
fn with_sphere() -> (GeomStore, SurfaceId) {
    let sphere = Sphere::new(Frame::WORLD, 1.0, &operands::least_precision());
    with_surface(Surface::Sphere(sphere.expect("a sphere")))
}

/// A store of one curve, and the id of a second one that only a larger store has.
fn without_curve() -> (GeomStore, CurveId) {
    let (store, id) = with_circle();
    let mut larger = store.clone();
    let curve = store.curve(id).expect("the circle").clone();
    let second = larger.add_curve(curve).expect("room for a curve");
    (store, second)
}

fn without_surface() -> (GeomStore, SurfaceId) {
    let (store, id) = with_sphere();
    let mut larger = store.clone();
    let surface = store.surface(id).expect("the sphere").clone();
    let second = larger.add_surface(surface).expect("room for a surface");
    (store, second)
}

/// The six floats of a carrier that no answer may depend on.
fn unread(r: &mut Random) -> [f64; 6] {
    [(); 6].map(|()| r.float(Style::Mixed))
}

/// A store and an id in it for what is held, and the carrier's six floats.
fn curve_held(r: &mut Random, held: Held, line: Line) -> (GeomStore, CurveId, [f64; 6]) {
    let ((store, id), carrier) = match held {
        Held::Line => (
            with_curve(Curve::Line(line)),
            six(line.origin(), line.direction()),
        ),
        Held::Plane => {
            let plane = operands::plane(r);
            let frame = plane.frame();
            (with_circle(), six(frame.origin(), frame.z()))
        }
        Held::Other => (with_circle(), unread(r)),
        Held::Missing => (without_curve(), unread(r)),
    };
    (store, id, carrier)
}

fn surface_held(r: &mut Random, held: Held, plane: Plane) -> (GeomStore, SurfaceId, [f64; 6]) {
    let ((store, id), carrier) = match held {
        Held::Plane => (
            with_surface(Surface::Plane(plane)),
            six(plane.frame().origin(), plane.frame().z()),
        ),
        Held::Line => {
            let line = operands::line(r);
            (with_sphere(), six(line.origin(), line.direction()))
        }
        Held::Other => (with_sphere(), unread(r)),
        Held::Missing => (without_surface(), unread(r)),
    };
    (store, id, carrier)
}

/// A row of a query. To what the Rust does not have, 01 gives 7 once the number is tested; the
/// Rust's answer is right as long as that test refuses.
fn query(
    carrier: [f64; 6],
    argument: &[f64],
    held: Held,
    usual: Held,
    answer: Result<Vec<f64>, Error>,
) -> Row {
    let answer = match answer {
        Ok(values) => valued(&values),
        Err(error) => refused(&error),
    };
    let mut row = row(&[&carrier[..], argument].concat(), answer);
    row.operands[11] = f64::from(held as u8);
    if held != usual && held != Held::Missing {
        row.by = By::Rule;
        if argument.iter().all(|x| x.is_finite()) {
            row.answer = numbered(7);
        }
    }
    row
}

fn eval_curve(r: &mut Random) -> Row {
    let (line, t) = line_and_parameter(r);
    let held = held(r, Held::Line);
    let (store, id, carrier) = curve_held(r, held, line);
    let answer = store.eval_curve(id, t).map(|at| three(at.point).to_vec());
    query(carrier, &[t], held, Held::Line, answer)
}

fn project_to_curve(r: &mut Random) -> Row {
    let (line, p) = match r.below(8) {
        // Where the closest point, or the way to it, may be beyond the greatest float.
        0 => (operands::line(r), operands::finite_point(r, Style::Huge)),
        1 => {
            let line = operands::line_from(r, Style::Huge);
            (line, operands::finite_point(r, Style::Huge))
        }
        _ => line_and_point(r),
    };
    let held = held(r, Held::Line);
    let (store, id, carrier) = curve_held(r, held, line);
    let answer = store
        .project_to_curve(id, p, &operands::least_precision())
        .map(|at| [&[at.param][..], &three(at.point)].concat());
    let mut row = query(carrier, &three(p), held, Held::Line, answer);
    if held == Held::Line && row.answer.number == 4 {
        let t = line.closest_param(p);
        let nearest = line.eval(t).point;
        if t.is_finite() && nearest.is_finite() && !nearest.distance(p).is_finite() {
            row.answer = valued(&[&[t][..], &three(nearest)].concat());
            row.by = By::Distance;
        }
    }
    row
}

fn distance_to_surface(r: &mut Random) -> Row {
    let (plane, p) = plane_and_point(r);
    let held = held(r, Held::Plane);
    let (store, id, carrier) = surface_held(r, held, plane);
    let answer = store
        .distance_to_surface(id, p, &operands::least_precision())
        .map(|distance| vec![distance]);
    query(carrier, &three(p), held, Held::Plane, answer)
}

// The sign tests, which euler.rs has within its functions: composed here as its lines compose them.

/// euler.rs, lines 49 to 57.
fn increasing(r: &mut Random) -> Row {
    let direction = operands::line(r).direction();
    let style = r.style();
    let (start, end) = match r.below(4) {
        // Across the direction, so that the sign hangs on a few ulps.
        0 | 1 => {
            let style = r.plain_style();
            let start = operands::finite_point(r, style);
            let across = direction.cross(operands::vector(r, style));
            (start, operands::moved(r, start + across))
        }
        2 => {
            let start = operands::point(r, style);
            (start, operands::moved(r, start))
        }
        _ => (operands::point(r, style), operands::point(r, style)),
    };
    let delta = dot(vector(end, start), points(direction));
    let operands = [three_of(direction), three(start), three(end)].concat();
    row(&operands, signed(delta.sign()))
}

/// euler.rs, line 65.
fn span(r: &mut Random) -> Row {
    let lo = any_float(r);
    let hi = if r.one_in(2) {
        r.near(lo)
    } else {
        any_float(r)
    };
    let sign = (Interval::point(hi) - Interval::point(lo)).sign();
    row(&[lo, hi], signed(sign))
}

/// Two points whose distance a precision or tolerance can be set beside.
fn two_points(r: &mut Random) -> (Point3, Point3) {
    let style = if r.one_in(4) {
        r.style()
    } else {
        r.plain_style()
    };
    let p = operands::point(r, style);
    let q = match r.below(4) {
        0 => operands::moved(r, p),
        1 => p + operands::vector(r, style) * r.pick(&[1.0, 0.0009765625]),
        2 => Point3::new(p.x, r.float(style), p.z),
        _ => operands::point(r, style),
    };
    (p, q)
}

/// A limit within some ulps of the distance, or one of its own.
fn limit(r: &mut Random, distance: f64) -> f64 {
    if r.one_in(8) {
        any_float(r)
    } else {
        r.moved(distance)
    }
}

/// euler.rs, lines 106 and 107.
fn apart(r: &mut Random) -> Row {
    let (p, q) = two_points(r);
    let precision = limit(r, p.distance(q));
    let delta = vector(p, q);
    let sign = (dot(delta, delta) - Interval::point(precision).sqr()).sign();
    let operands = [&three(p)[..], &three(q), &[precision]].concat();
    row(&operands, signed(sign))
}

/// euler.rs, lines 143 to 154.
fn off_plane(r: &mut Random) -> Row {
    let (plane, p) = plane_and_point(r);
    let (origin, normal) = (plane.frame().origin(), plane.frame().z());
    let tolerance = limit(r, plane.frame().to_local(p).z.abs());
    let distance = dot(points(normal), vector(p, origin));
    let sign = (distance.sqr() - Interval::point(tolerance).sqr()).sign();
    let operands = [&six(origin, normal)[..], &three(p), &[tolerance]].concat();
    row(&operands, signed(sign))
}

/// The interval test that 01 puts in the place of gensolid-check's line 354, and how the two
/// verdicts compare where the Rust comes to one.
fn off_curve(r: &mut Random) -> Row {
    let (p, q) = two_points(r);
    let distance = q.distance(p);
    let vertex = if r.one_in(8) {
        any_float(r)
    } else {
        distance * r.pick(&[0.5, 0.25, 0.75, 0.0, 1.0])
    };
    let edge = limit(r, distance - vertex);
    let delta = vector(p, q);
    let reach = Interval::point(vertex) + Interval::point(edge);
    let sign = (dot(delta, delta) - reach.sqr()).sign();
    let operands = [&three(p)[..], &three(q), &[vertex, edge]].concat();
    let mut row = row(&operands, signed(sign));
    let verdict = p.is_finite() && q.is_finite() && distance.is_finite();
    if verdict
        && vertex >= 0.0
        && edge >= 0.0
        && sign.is_some_and(|sign| (sign == Sign::Positive) != (distance > vertex + edge))
    {
        row.by = By::Verdict;
    }
    row
}
