//! Moving a stone (W-214): what the request takes, once more from its words and 01's, over plain records, with the Rust's own walks and report; and a stone moved.

use gensolid_topo::Model;
use models::original::{self, Names};
use models::plain::{Body, Kind, Plain, Region, Shell, Triple};

use crate::sheets::Point;

// ---- "take a well-formed model, .."

/// Each parent lists a child once where the child names it, and else not at all.
fn once<'a>(
    lists: impl Iterator<Item = &'a Vec<usize>>,
    children: usize,
    names: impl Fn(usize, usize) -> bool,
) -> bool {
    let count = |list: &[usize], child| list.iter().filter(|&&id| id == child).count();
    lists
        .enumerate()
        .all(|(k, list)| (0..children).all(|c| count(list, c) == usize::from(names(c, k))))
}

/// The ends of a fin in its direction.
fn ends(plain: &Plain, fin: usize) -> [Option<usize>; 2] {
    let r = &plain.fins[fin];
    let edge = &plain.edges[r.edge];
    match r.positive {
        true => [edge.start, edge.end],
        false => [edge.end, edge.start],
    }
}

/// 01, "Well formed", of a model that memory can hold.
pub fn well_formed(plain: &Plain) -> bool {
    let p = plain;
    let mut named = true;
    let used = p.used();
    p.clone().ids(|class, id| named &= *id < used[class]);
    // "Every stored id names a record"
    named
        // "Each region, shell, loop and fin is listed exactly once, by the parent it names"
        && once(p.bodies.iter().map(|r| &r.regions), p.regions.len(), |c, k| p.regions[c].body == k)
        && once(p.regions.iter().map(|r| &r.shells), p.shells.len(), |c, k| p.shells[c].region == k)
        && once(p.faces.iter().map(|r| &r.loops), p.loops.len(), |c, k| p.loops[c].face == k)
        && once(p.loops.iter().map(|r| &r.fins), p.fins.len(), |c, k| p.fins[c].owner == k)
        // "A shell lists a face once exactly when it is the face's front or back"
        && once(p.shells.iter().map(|r| &r.faces), p.faces.len(), |c, k| {
            [p.faces[c].front, p.faces[c].back].contains(&Some(k))
        })
        // "Every fin is listed once by its edge, and an edge lists only fins naming it"
        && once(p.edges.iter().map(|r| &r.fins), p.fins.len(), |c, k| p.fins[c].edge == k)
        // "No loop is empty, and every fin ends where the next starts"
        && p.loops.iter().all(|r| {
            let next = r.fins.iter().cycle().skip(1);
            let meet = |(&i, &j)| ends(p, i)[1] == ends(p, j)[0];
            !r.fins.is_empty() && r.fins.iter().zip(next).all(meet)
        })
        // "No shell repeats a wire edge"
        && p.shells.iter().all(|r| {
            let first = |k: usize| !r.wire_edges[..k].contains(&r.wire_edges[k]);
            (0..r.wire_edges.len()).all(first)
        })
}

/// A walk of the Rust's, where it is not refused.
fn walk(model: &Model, names: &Names, body: usize, which: usize) -> Option<Vec<usize>> {
    let told = &original::walks(model, names, body)[which];
    let ids = told.numbers[1..].iter().map(|&id| id as usize);
    (!told.refused()).then(|| ids.collect())
}

/// The faces of a body.
pub fn faces(model: &Model, names: &Names, body: usize) -> Vec<usize> {
    walk(model, names, body, 0).unwrap_or_default()
}

/// The vertices of a body.
pub fn vertices(model: &Model, names: &Names, body: usize) -> Vec<usize> {
    walk(model, names, body, 2).unwrap_or_default()
}

/// What the request asks and the body does not have, in the request's order.
pub fn unmet(model: &Model, names: &Names, plain: &Plain, body: usize) -> Vec<&'static str> {
    if !well_formed(plain) {
        return vec!["not well formed"];
    }
    let record = &plain.bodies[body];
    let solid = record.regions.iter().filter(|&&r| plain.regions[r].solid);
    let solid: Vec<usize> = solid.copied().collect();
    let report = original::report(model, names, body, false, 0);
    let faces = faces(model, names, body);
    let edges = walk(model, names, body, 1).unwrap_or_default();
    let face = |k: &usize| &plain.faces[*k];
    let fins = |k: &usize| match face(k).loops[..] {
        [only] => plain.loops[only].fins.len(),
        _ => 0,
    };
    let region = |shell: Option<usize>| shell.map(|s| plain.shells[s].region);
    let own = |fin: &usize| faces.contains(&plain.loops[plain.fins[*fin].owner].face);
    let tests = [
        (record.kind == Kind::Solid, "no solid"),
        (
            report.is_ok_and(|told| told.numbers[..] == [0, 0]),
            "a fault in the topological report",
        ),
        (solid.len() == 1, "not one solid region"),
        (
            faces.iter().all(|k| fins(k) >= 3),
            "a face without one loop of three fins",
        ),
        (
            faces
                .iter()
                .all(|k| region(face(k).back).is_some_and(|r| solid.contains(&r))),
            "a back elsewhere",
        ),
        (
            faces
                .iter()
                .all(|k| region(face(k).front).is_some_and(|r| !plain.regions[r].solid)),
            "a front not outside",
        ),
        (
            edges.iter().all(|&k| plain.edges[k].fins.iter().all(own)),
            "a fin in another's loop",
        ),
        (
            edges
                .iter()
                .all(|&k| plain.edges[k].start.is_some() && plain.edges[k].end.is_some()),
            "an end missing",
        ),
    ];
    let failed = tests.into_iter().filter(|&(holds, _)| !holds);
    failed.map(|(_, what)| what).collect()
}

// ---- a face less

/// No shell lists the face any more.
pub fn without(plain: &Plain, face: usize) -> Plain {
    let mut plain = plain.clone();
    for r in &mut plain.shells {
        r.faces.retain(|&k| k != face);
    }
    plain
}

/// The face is another body's, a sheet, whose region is not solid.
pub fn given_away(plain: &Plain, face: usize, office: u32) -> Plain {
    let mut plain = without(plain, face);
    let [body, region, shell] = [plain.bodies.len(), plain.regions.len(), plain.shells.len()];
    plain.bodies.push(Body {
        kind: Kind::Sheet,
        office,
        regions: vec![region],
    });
    plain.regions.push(Region {
        body,
        solid: false,
        shells: vec![shell],
    });
    plain.shells.push(Shell {
        region,
        faces: vec![face],
        wire_edges: Vec::new(),
        acorn_vertices: Vec::new(),
    });
    plain.faces[face].front = Some(shell);
    plain.faces[face].back = Some(shell);
    plain
}

/// What a stone without the face gains on the way, in cubic sixteenths: what the face would lose, t·(p × q) over its fins.
pub fn gain(plain: &Plain, face: usize, way: Point) -> i128 {
    let fins = &plain.loops[plain.faces[face].loops[0]].fins;
    let at = |fin: &usize| -> Point {
        let start = ends(plain, *fin)[0].expect("no end is missing");
        plain.vertices[start].point.map(|x| (x * 16.0) as i128)
    };
    let next = fins.iter().cycle().skip(1);
    let levers = fins.iter().zip(next).map(|(i, j)| {
        let ([a, b, c], [d, e, f]) = (at(i), at(j));
        way[0] * (b * f - c * e) + way[1] * (c * d - a * f) + way[2] * (a * e - b * d)
    });
    -levers.sum::<i128>()
}

/// A point moved by so many sixteenths.
pub fn moved(point: Triple, way: Point) -> Triple {
    std::array::from_fn(|k| point[k] + way[k] as f64 / 16.0)
}
