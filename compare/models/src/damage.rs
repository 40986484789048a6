//! Damages, each of one record.

use crate::original::STRAYS;
use crate::plain::{Carrier, Kind, Plain};
use crate::random::Random;

/// An id of a table of so many records, or of none of them.
fn any(random: &mut Random, used: usize) -> usize {
    random.below(used + 3)
}

fn harm_list(random: &mut Random, list: &mut Vec<usize>, used: usize) -> String {
    let at = random.below(list.len().max(1));
    let stray = any(random, used);
    match random.below(8) {
        0 | 1 if !list.is_empty() => format!("lost entry {at}, {}", list.remove(at)),
        2 if !list.is_empty() => {
            let to = random.below(list.len() + 1);
            list.insert(to, list[at]);
            format!("repeats {} at {to}", list[to])
        }
        3 if list.len() > 1 => {
            let to = random.below(list.len());
            list.swap(at, to);
            format!("has entries {at} and {to} exchanged")
        }
        4 => {
            list.clear();
            "is empty".into()
        }
        5 | 6 if !list.is_empty() => {
            list[at] = if random.one_in(2) { stray } else { used };
            format!("has {} at {at}", list[at])
        }
        _ => {
            list.push(stray);
            format!("has {stray} more")
        }
    }
}

fn harm_option(random: &mut Random, id: &mut Option<usize>, used: usize) -> String {
    *id = match random.below(5) {
        0 | 1 => None,
        2 => Some(used + random.below(2)),
        _ => Some(any(random, used)),
    };
    format!("is {id:?}")
}

/// A tolerance that the Rust takes: at least half the precision.
fn own(random: &mut Random, precision: f64) -> Option<f64> {
    let times = random.pick(&[0.5, 0.7, 1.0, 2.0, 3.0, 250.0, 700.0]);
    Some(precision * times)
}

/// Ways around the tolerances and the precision, and long ones.
fn step(random: &mut Random, precision: f64) -> f64 {
    let times = random.pick(&[
        0.4, 0.4999, 0.5, 0.5, 0.5001, 0.6, 0.999, 1.0, 1.0, 1.0, 1.001, 1.2, 2.0, 300.0,
    ]);
    let way = precision * times;
    let way = match random.below(4) {
        0 => way.next_up(),
        1 => way.next_down(),
        _ => way,
    };
    if random.one_in(2) { -way } else { way }
}

/// Bends or moves a carrier, or makes it another sort.
fn harm_carrier(random: &mut Random, carrier: &mut Carrier, precision: f64) -> String {
    let axis = random.below(3);
    let (Carrier::Line(origin, way) | Carrier::Plane(origin, way)) = carrier else {
        return "stays other".into();
    };
    match random.below(9) {
        0 => {
            *carrier = Carrier::Other;
            "is other".into()
        }
        8 => {
            for (x, d) in origin.iter_mut().zip(way) {
                *x += 1.0e18 * *d;
            }
            "has its origin far along it".into()
        }
        1..=4 => {
            let by = step(random, precision);
            origin[axis] += by;
            format!("is moved by {by:e} along axis {axis}")
        }
        5 => {
            *way = way.map(|x| -x);
            "is reversed".into()
        }
        _ => {
            let by = random.pick(&[precision, 0.01, 0.3]);
            way[axis] += by;
            format!("is bent by {by:e} along axis {axis}")
        }
    }
}

/// One damage: what it did, and an edge that it is near to.
pub fn damage(plain: &mut Plain, random: &mut Random) -> (String, Option<usize>) {
    let used = plain.used();
    let [
        bodies,
        regions,
        shells,
        faces,
        loops,
        fins,
        edges,
        vertices,
        curves,
        surfaces,
    ] = used;
    loop {
        // A class, by how much of it there is to be damaged; then one of its records.
        let class = random.pick(&[
            0, 1, 1, 2, 2, 3, 3, 3, 4, 4, 4, 5, 5, 5, 5, 6, 6, 6, 6, 6, 6, 7, 7, 7, 7, 8, 8, 9, 9,
        ]);
        if used[class] == 0 {
            continue;
        }
        let id = random.below(used[class]);
        let precision = plain.precision;
        let fin_edge = |plain: &Plain, fin: usize| plain.fins.get(fin).map(|r| r.edge);
        let loop_edge =
            |plain: &Plain, id: usize| fin_edge(plain, *plain.loops.get(id)?.fins.first()?);
        let face_edge =
            |plain: &Plain, id: usize| loop_edge(plain, *plain.faces.get(id)?.loops.first()?);
        let near = match class {
            3 => face_edge(plain, id),
            4 => loop_edge(plain, id),
            5 => fin_edge(plain, id),
            6 => Some(id),
            7 => plain
                .edges
                .iter()
                .position(|r| r.start == Some(id) || r.end == Some(id)),
            8 => plain.edges.iter().position(|r| r.curve == Some(id)),
            9 => (0..faces)
                .find(|&f| plain.faces[f].surface == Some(id))
                .and_then(|f| face_edge(plain, f)),
            _ => None,
        };
        let what = match class {
            0 => {
                let r = &mut plain.bodies[id];
                if random.one_in(3) {
                    r.kind = random.pick(&Kind::ALL);
                    format!("body {id}: is {:?}", r.kind)
                } else {
                    let done = harm_list(random, &mut r.regions, regions);
                    format!("body {id}: regions {done}")
                }
            }
            1 => {
                let r = &mut plain.regions[id];
                match random.below(4) {
                    0 => {
                        r.body = any(random, bodies);
                        format!("region {id}: body is {}", r.body)
                    }
                    1 => {
                        r.solid = !r.solid;
                        format!("region {id}: solid is {}", r.solid)
                    }
                    _ => {
                        let done = harm_list(random, &mut r.shells, shells);
                        format!("region {id}: shells {done}")
                    }
                }
            }
            2 => {
                let r = &mut plain.shells[id];
                match random.below(6) {
                    0 => {
                        r.region = any(random, regions);
                        format!("shell {id}: region is {}", r.region)
                    }
                    1 => {
                        let done = harm_list(random, &mut r.acorn_vertices, vertices);
                        format!("shell {id}: acorn vertices {done}")
                    }
                    2 | 3 => {
                        let done = harm_list(random, &mut r.wire_edges, edges);
                        format!("shell {id}: wire edges {done}")
                    }
                    _ => {
                        let done = harm_list(random, &mut r.faces, faces);
                        format!("shell {id}: faces {done}")
                    }
                }
            }
            3 => {
                let r = &mut plain.faces[id];
                match random.below(9) {
                    0 | 1 => format!(
                        "face {id}: front {}",
                        harm_option(random, &mut r.front, shells)
                    ),
                    2 | 3 => format!(
                        "face {id}: back {}",
                        harm_option(random, &mut r.back, shells)
                    ),
                    4 | 5 => {
                        let done = harm_option(random, &mut r.surface, surfaces);
                        format!("face {id}: surface {done}")
                    }
                    6 => {
                        r.positive = !r.positive;
                        format!("face {id}: the other sense")
                    }
                    _ => {
                        let done = harm_list(random, &mut r.loops, loops);
                        format!("face {id}: loops {done}")
                    }
                }
            }
            4 => {
                let r = &mut plain.loops[id];
                if random.one_in(3) {
                    r.face = any(random, faces);
                    format!("loop {id}: face is {}", r.face)
                } else {
                    let done = harm_list(random, &mut r.fins, fins);
                    format!("loop {id}: fins {done}")
                }
            }
            5 => {
                let r = &mut plain.fins[id];
                match random.below(4) {
                    0 => {
                        r.owner = any(random, loops);
                        format!("fin {id}: owner is {}", r.owner)
                    }
                    1 => {
                        r.edge = any(random, edges);
                        format!("fin {id}: edge is {}", r.edge)
                    }
                    2 => {
                        r.positive = !r.positive;
                        format!("fin {id}: the other sense")
                    }
                    _ => {
                        r.pcurve = true;
                        format!("fin {id}: has a pcurve")
                    }
                }
            }
            6 => {
                let r = &mut plain.edges[id];
                match random.below(9) {
                    8 => {
                        // As far apart as can be, along the curve's first axis that is not zero.
                        let ends = [r.start, r.end].map(|v| v.filter(|&v| v < vertices));
                        if let (Some(Carrier::Line(_, way)), [Some(start), Some(end)]) =
                            (plain.curves.get(r.curve.unwrap_or(curves)), ends)
                            && let Some(axis) = way.iter().position(|&x| x != 0.0)
                        {
                            let far = f64::MAX.copysign(way[axis]);
                            plain.vertices[start].point[axis] = -far;
                            plain.vertices[end].point[axis] = far;
                        }
                        format!("edge {id}: ends as far apart as can be")
                    }
                    0 => format!(
                        "edge {id}: start {}",
                        harm_option(random, &mut r.start, vertices)
                    ),
                    1 => format!(
                        "edge {id}: end {}",
                        harm_option(random, &mut r.end, vertices)
                    ),
                    2 => {
                        (r.start, r.end) = if random.one_in(3) {
                            (None, None)
                        } else {
                            (r.end, r.start)
                        };
                        format!("edge {id}: ends are {:?}, {:?}", r.start, r.end)
                    }
                    3 => format!(
                        "edge {id}: curve {}",
                        harm_option(random, &mut r.curve, curves)
                    ),
                    4 | 5 => {
                        r.tolerance = own(random, precision);
                        format!("edge {id}: tolerance {:?}", r.tolerance)
                    }
                    _ => format!("edge {id}: fins {}", harm_list(random, &mut r.fins, fins)),
                }
            }
            7 => {
                let r = &mut plain.vertices[id];
                let axis = random.below(3);
                match random.below(8) {
                    0 => {
                        r.tolerance = own(random, precision);
                        format!("vertex {id}: tolerance {:?}", r.tolerance)
                    }
                    6 | 7 => {
                        // With an edge of the session's tolerance: just at the sum of both.
                        if random.one_in(2) {
                            r.tolerance = Some(precision);
                        }
                        r.point[axis] += r.tolerance.unwrap_or(precision * 0.5) + precision * 0.5;
                        format!("vertex {id}: at the tolerances' sum along axis {axis}")
                    }
                    1 | 2 => {
                        r.point[axis] = random.pick(&[
                            f64::NAN,
                            f64::INFINITY,
                            f64::NEG_INFINITY,
                            1.0e300,
                            -1.0e200,
                            -0.0,
                            f64::MAX,
                            1.0e-310,
                        ]);
                        format!("vertex {id}: {:e} on axis {axis}", r.point[axis])
                    }
                    _ => {
                        let by = step(random, precision);
                        r.point[axis] += by;
                        format!("vertex {id}: moved by {by:e} along axis {axis}")
                    }
                }
            }
            8 => {
                let done = harm_carrier(random, &mut plain.curves[id], precision);
                format!("curve {id}: {done}")
            }
            _ => {
                let done = harm_carrier(random, &mut plain.surfaces[id], precision);
                format!("surface {id}: {done}")
            }
        };
        let near = match class {
            2 => plain.shells[id].wire_edges.last().copied(),
            _ => near,
        };
        return (what, near);
    }
}

/// A face that a shell no longer lists, and which names that shell still, another, one that is not there, or none: the checker asks of the shells that list a
/// face, and not of those that it names.
pub fn unlist(plain: &mut Plain, random: &mut Random) -> Option<String> {
    let shells = plain.shells.len();
    let id = random.below(plain.faces.len().max(1));
    let back = !random.one_in(4);
    let face = plain.faces.get_mut(id)?;
    let side = if back { &mut face.back } else { &mut face.front };
    let old = (*side)?;
    *side = match random.below(5) {
        0 => None,
        1 => Some(shells + random.below(2)),
        2 | 3 => Some(random.below(shells)),
        _ => Some(old),
    };
    let new = *side;
    plain.shells.get_mut(old)?.faces.retain(|&face| face != id);
    if let Some(shell) = new.and_then(|shell| plain.shells.get_mut(shell))
        && new != Some(old)
        && random.one_in(2)
    {
        shell.faces.push(id);
    }
    Some(format!("face {id} struck from shell {old}, its {} is {new:?}", if back { "back" } else { "front" }))
}

/// Of the ids that name no record, puts some above every table.
pub fn stray(plain: &mut Plain, random: &mut Random) {
    let used = plain.used();
    plain.ids(|class, id| {
        if *id >= used[class] && random.one_in(2) {
            *id = random.pick(&STRAYS);
        }
    });
}
