//! Planes, ends and vertices moved to just about a tolerance or the precision, where an answer turns; and own tolerances on either side of the
//! session's (W-211).

use crate::plain::{Carrier, Plain};
use crate::random::Random;

/// What an own tolerance is by the precision: as the Rust makes it, and on either side of the session's, which is half of it.
#[derive(Clone, Copy)]
pub enum Own {
    Made,
    Either,
}

const EITHER: [f64; 9] = [
    0.0,
    0.125,
    0.25,
    0.5 - 0.5 * f64::EPSILON,
    0.5,
    0.5 + f64::EPSILON,
    0.75,
    3.0,
    64.0,
];

/// The surface of one of the edge's faces.
fn surface(plain: &Plain, edge: usize) -> Option<usize> {
    let fin = *plain.edges.get(edge)?.fins.first()?;
    let face = plain.loops.get(plain.fins.get(fin)?.owner)?.face;
    plain.faces.get(face)?.surface
}

/// A plane of one of the edge's faces moved to just about the edge's tolerance, on either side; the
/// edge's own tolerance is set too. Where it may be below the session's, also to about that, and between both.
pub fn plane(plain: &mut Plain, random: &mut Random, sort: Own) -> Option<usize> {
    let edge = random.below(plain.edges.len().max(1));
    let surface = surface(plain, edge)?;
    let session = plain.precision * 0.5;
    let (own, off) = match sort {
        Own::Made => {
            let own = plain.precision * random.pick(&[0.5, 1.0, 3.0, 64.0]);
            (own, own)
        }
        Own::Either => {
            let own = plain.precision * random.pick(&EITHER);
            (own, random.pick(&[own, session, (own + session) * 0.5]))
        }
    };
    plain.edges[edge].tolerance = Some(own);
    let times = random.pick(&[
        1.0 - 1.0e-9,
        1.0 - 4.0 * f64::EPSILON,
        1.0 - f64::EPSILON,
        1.0,
        1.0 + f64::EPSILON,
        1.0 + 4.0 * f64::EPSILON,
        1.0 + 1.0e-9,
        -1.0,
        -1.0 - 4.0 * f64::EPSILON,
    ]);
    if let Some(Carrier::Plane(o, n)) = plain.surfaces.get_mut(surface) {
        for (o, n) in o.iter_mut().zip(n) {
            *o += *n * off * times;
        }
    }
    Some(edge)
}

/// The ends of a straight edge moved to parameters that are the same number, neighbours or a few floats apart, either way round, near
/// the line's origin or far from it: about the sign of tests 7 and 8, and under the precision about that of test 10.
pub fn ends(plain: &mut Plain, random: &mut Random) -> Option<usize> {
    let edge = random.below(plain.edges.len().max(1));
    let record = plain.edges.get(edge)?;
    let (start, end) = (record.start?, record.end?);
    let Carrier::Line(origin, way) = *plain.curves.get(record.curve?)? else {
        return None;
    };
    let from: f64 = random.pick(&[0.0, 1.0, -3.0, 1.0e6, 1.0995e12]);
    let mut to = match random.below(3) {
        0 => from + plain.precision * random.pick(&[0.5, 1.0, 2.0, 3.0]),
        _ => from,
    };
    for _ in 0..random.below(4) {
        to = to.next_up();
    }
    let (a, b) = if random.one_in(2) { (from, to) } else { (to, from) };
    for (id, t) in [(start, a), (end, b)] {
        plain.vertices.get_mut(id)?.point = std::array::from_fn(|i| origin[i] + way[i] * t);
    }
    Some(edge)
}

/// A vertex moved off its straight edge by just about the sum of both tolerances, which are set too: about the sign of the off-curve test. Where they may be
/// below the session's, also by a sum with the session's in the place of one or both.
pub fn curve(plain: &mut Plain, random: &mut Random, sort: Own) -> Option<usize> {
    let edge = random.below(plain.edges.len().max(1));
    let record = plain.edges.get_mut(edge)?;
    let Carrier::Line(_, way) = *plain.curves.get(record.curve?)? else {
        return None;
    };
    let vertex = plain.vertices.get_mut(if random.one_in(2) { record.start? } else { record.end? })?;
    let times: &[f64] = match sort {
        Own::Made => &[1.0, 0.75, 3.0, 64.0],
        Own::Either => &EITHER,
    };
    let [own, edges] = [(); 2].map(|()| plain.precision * random.pick(times));
    (vertex.tolerance, record.tolerance) = (Some(own), Some(edges));
    let session = plain.precision * 0.5;
    let off = match sort {
        Own::Made => own + edges,
        Own::Either => random.pick(&[own, own.max(session)]) + random.pick(&[edges, edges.max(session)]),
    };
    let across = (0..3).min_by(|&i, &j| way[i].abs().total_cmp(&way[j].abs()))?;
    let away: [f64; 3] = std::array::from_fn(|i| f64::from(u8::from(i == across)) - way[across] * way[i]);
    let size = away.iter().map(|a| a * a).sum::<f64>().sqrt();
    let times = 1.0 + f64::EPSILON * random.pick(&[-6.0, -3.0, -2.0, -1.0, -0.5, 0.0, 1.0, 2.0, 3.0, 6.0]);
    for (p, a) in vertex.point.iter_mut().zip(away) {
        *p += a / size * off * times;
    }
    Some(edge)
}

/// Own tolerances below, at and above the session's on some edges and vertices.
pub fn tolerances(plain: &mut Plain, random: &mut Random) {
    let precision = plain.precision;
    let edges = plain.edges.iter_mut().map(|r| &mut r.tolerance);
    for tolerance in edges.chain(plain.vertices.iter_mut().map(|r| &mut r.tolerance)) {
        match random.below(4) {
            0 | 1 => *tolerance = Some(precision * random.pick(&EITHER)),
            2 => *tolerance = None,
            _ => {}
        }
    }
}
