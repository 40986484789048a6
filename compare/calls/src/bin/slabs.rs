//! The slab profile of a body (W-212), compared with what the request's words make of the lent memory (`slabs.rs`): `slabs [models] [seed]`; `slabs wrong [models] [seed]` for wrong
//! stations, each of which must be seen. The exit status is 1 where anything differs.

use std::env;
use std::process::ExitCode;

use calls::layout::{LARGEST, Lent};
use calls::noise::{around, wild};
use calls::slab_wrong::{BESIDE, How, WRONGS};
use calls::slabs::{Answer, Ask, Rule, answer};
use calls::solids::{again, equal, turned};
use calls::spoil::spoil;
use calls::tally::Tally;
use models::damage::damage;
use models::original::Names;
use models::plain::{Carrier, Kind, Plain, Version, Vertex};
use models::random::Random;
use models::{Sort, made};

/// Offices that are none.
const ABOVE: [u32; 5] = [2, 2, 3, 1 << 31, u32::MAX];

// ---- slabs

/// The corners of a slab seen from above: an oblong, an L, a U, in steps along either way.
const SHAPES: [&[[usize; 2]]; 3] = [
    &[[0, 0], [1, 0], [1, 1], [0, 1]],
    &[[0, 0], [2, 0], [2, 1], [1, 1], [1, 2], [0, 2]],
    &[
        [0, 0],
        [3, 0],
        [3, 2],
        [2, 2],
        [2, 1],
        [1, 1],
        [1, 2],
        [0, 2],
    ],
];

/// Rising numbers of the grid, at times from end to end of it.
fn rising(random: &mut Random) -> [f64; 4] {
    let mut all = [0; 4].map(|_| random.below(65_537) as i32 - 32_768);
    if random.one_in(2) {
        all = [0; 4].map(|_| random.below(200) as i32 - 100);
    }
    if random.one_in(8) {
        (all[0], all[3]) = (-32_768, 32_768);
    }
    all.sort_unstable();
    for k in 1..4 {
        all[k] = all[k].max(all[k - 1] + 1);
    }
    all.map(|n| f64::from(n) / 16.0)
}

/// A slab with its planes: any axis upward, zeros of either sign.
fn slab(random: &mut Random) -> Plain {
    let shape = random.pick(&SHAPES);
    let mut plain = Plain::prisms(1, shape.len());
    let [xs, ys, zs] = [0; 3].map(|_| rising(random));
    let turn = random.below(3);
    for (k, r) in plain.vertices.iter_mut().enumerate() {
        let [x, y] = shape[k % shape.len()];
        r.point = [xs[x], ys[y], zs[k / shape.len()]];
        r.point.rotate_left(turn);
    }
    for f in 0..plain.faces.len() {
        let loops = &plain.faces[f].loops;
        let corners: Vec<[f64; 3]> = plain.loops[loops[0]]
            .fins
            .iter()
            .map(|&i| {
                let fin = &plain.fins[i];
                let edge = &plain.edges[fin.edge];
                let start = if fin.positive { edge.start } else { edge.end };
                plain.vertices[start.expect("a start")].point
            })
            .collect();
        let axis = (0..3).find(|&k| corners.iter().all(|p| p[k] == corners[0][k]));
        let mut normal = [0; 3].map(|_| random.pick(&[0.0, 0.0, -0.0]));
        normal[axis.expect("a level face")] = random.pick(&[1.0, -1.0]);
        let surface = plain.faces[f].surface.expect("a surface");
        plain.surfaces[surface] = Carrier::Plane(corners[0], normal);
    }
    plain
}

/// A change that a rule minds, or does not.
fn nearly(plain: &mut Plain, random: &mut Random) -> String {
    let used = plain.used();
    if used.contains(&0) {
        return "nothing".into();
    }
    let [face, ring, fin, edge, vertex] = [3, 4, 5, 6, 7].map(|k| random.below(used[k].max(1)));
    let missing = used[7] + random.pick(&[0, 1, 5000]);
    let other = random.below(used[7].max(1));
    let what = random.below(16);
    match what {
        0 => {
            let x = &mut plain.vertices[vertex].point[random.below(3)];
            *x = random.pick(&[
                *x + 1.0 / 32.0,
                *x + 1.0 / 16.0,
                -*x,
                x.next_up(),
                f64::NAN,
                2048.0,
                2048.0625,
                f64::INFINITY,
            ]);
        }
        1 => {
            // All that share the coordinate: still along the axes.
            let k = random.below(3);
            let old = plain.vertices[vertex].point[k];
            let new = old + random.pick(&[1.0 / 32.0, 1.0 / 16.0, 1.0e-9, 3000.0]);
            for r in &mut plain.vertices {
                if r.point[k] == old {
                    r.point[k] = new;
                }
            }
        }
        2 => {
            let surface = plain.faces[face].surface.unwrap_or(0) % plain.surfaces.len();
            let n = random.pick(&[
                [0.6, 0.8, 0.0],
                [2.0, 0.0, 0.0],
                [0.0; 3],
                [1.0, 0.0, -0.0],
                [0.0, -1.0, 0.0],
                [0.0, 0.0, 1.0],
                [1.0, 0.0, f64::NAN],
                [1.0, 1.0, 0.0],
                [1.0, 0.0, 5.0e-324],
            ]);
            plain.surfaces[surface] = Carrier::Plane([0.0; 3], n);
        }
        3 => plain.faces[face].loops.push(ring),
        4 => plain.faces[face].loops.clear(),
        5 => {
            let fins = &mut plain.loops[ring].fins;
            let n = fins.len().max(1);
            if !fins.is_empty() {
                fins.swap(random.below(n), random.below(n));
            }
        }
        6 => drop(plain.loops[ring].fins.pop()),
        7 => {
            let fins = &mut plain.loops[ring].fins;
            let n = 1.min(fins.len());
            fins.rotate_left(n);
        }
        8 => plain.edges[edge].start = random.pick(&[None, Some(other), Some(missing)]),
        9 => plain.edges[edge].end = random.pick(&[None, Some(other), Some(missing)]),
        10 => plain.fins[fin].positive ^= true,
        11 | 12 => {
            let shell = random.below(plain.shells.len().max(1));
            let p = plain.vertices[vertex].point;
            let mut q = p;
            q[random.below(3)] += random.pick(&[1.0, 0.5, 1.0 / 32.0, 0.0]);
            if random.one_in(3) {
                q[random.below(3)] += 1.0;
            }
            plain.vertices.push(Vertex {
                point: q,
                tolerance: None,
            });
            if random.one_in(2) {
                plain.shells[shell].acorn_vertices.push(random.pick(&[
                    used[7],
                    used[7],
                    vertex,
                    missing + 1,
                ]));
            } else {
                let mut wire = plain.edges[edge].clone();
                wire.fins.clear();
                (wire.start, wire.end) = (
                    random.pick(&[Some(vertex), Some(vertex), None, Some(missing + 1)]),
                    Some(used[7]),
                );
                plain.edges.push(wire);
                plain.shells[shell].wire_edges.push(used[6]);
            }
        }
        13 => drop(plain.vertices.pop()),
        14 => {
            for fins in plain.loops.iter_mut().map(|r| &mut r.fins) {
                if random.one_in(6) {
                    fins.clear();
                }
            }
        }
        _ => {
            let body = random.below(plain.bodies.len());
            plain.bodies[body].kind = random.pick(&[Kind::Solid, Kind::Sheet, Kind::General]);
        }
    }
    format!("near {what}")
}

/// A model of the number: a slab, nearly one, or any.
fn shaped(
    names: &Names,
    [seed, number]: [u64; 2],
    random: &mut Random,
) -> Option<(Plain, Vec<String>)> {
    let mut told = vec![];
    let mut plain = if random.one_in(5) {
        let sound: &[usize] = &[];
        let sound = random.one_in(2).then_some(sound);
        let made = made(names, Sort::Several, seed, number, sound)?;
        told = made.told;
        made.plain
    } else {
        slab(random)
    };
    for _ in 0..random.pick(&[0, 0, 1, 1, 1, 2, 3]) {
        told.push(nearly(&mut plain, random));
    }
    if random.one_in(8) {
        told.push(damage(&mut plain, random).0);
    }
    if random.one_in(4) {
        told.push(turned(&mut plain, random));
    }
    if random.one_in(4) {
        told.extend(again(&mut plain, random));
    }
    if random.one_in(4) {
        told.push(equal(&mut plain, random));
    }
    let offices: Vec<u32> = plain
        .bodies
        .iter()
        .map(|_| random.below(2) as u32)
        .collect();
    plain = plain.of(&offices);
    plain.version = random.pick(&[Version::First, Version::Second]);
    Some((plain, told))
}

// ---- asked

fn answered(lent: &Lent, ask: &Ask, random: &mut Random, wrong: Option<How>) -> Answer {
    let mut given = ask.ours(lent, random.bits() as u8, random.pick(&[0, 0, 0, 1, 40]));
    match wrong {
        Some(How::Rule(change)) => {
            let mut rule = Rule::REQUEST;
            change(&mut rule);
            let [right, other] = [Rule::REQUEST, rule].map(|rule| answer(lent, ask, &rule).0);
            if right != other {
                given = other;
            }
        }
        Some(How::Told(alter)) => alter(ask, &mut given),
        Some(How::First) if ask.office > 1 && given.number == 9 => given.number = 1,
        _ => {}
    }
    given
}

/// The bodies, asked about by both offices and at times by one that is none.
fn asked(
    tally: &mut Tally,
    what: &'static str,
    lent: &mut Lent,
    turns: usize,
    random: &mut Random,
    wrong: Option<How>,
) {
    let before = lent.clone();
    let bodies = lent.words.first().map_or(0, |&n| (n as usize).min(8));
    for _ in 0..turns {
        let behind = usize::from(random.one_in(6));
        let body = match random.one_in(30) {
            true => random.pick(&[65_535, u32::MAX as usize, 1 << 32, usize::MAX]),
            false => random.below(bodies + behind + usize::from(bodies == 0)),
        };
        let own = match lent.words.get(lent.word_at(0, body.min(8)) + 1) {
            Some(&office) if body < bodies => office.min(1),
            _ => 0,
        };
        let above = random.pick(&ABOVE);
        let office = random.pick(&[own, own, own, own, own, own, 1 - own, above]);
        let more = random.below(4);
        let n = random.pick(&[6, 8, 10, 512, 5, 7, more, 0, 600]);
        let ask = Ask {
            office,
            body,
            short: lent.room[6] > 0 && random.one_in(12),
            slots: [0; 3].map(|_| random.bits()),
            areas: (0..n).map(|_| random.bits()).collect(),
        };
        lent.office = office;
        let (expected, words) = answer(lent, &ask, &Rule::REQUEST);
        tally.met(what, &words);
        let given = answered(lent, &ask, random, wrong);
        tally.same("profiles", &expected, &given, || format!("{ask:?}"));
        if matches!(wrong, Some(How::Tables)) && expected.number == 0 {
            lent.reals[0] = lent.reals[0].next_up();
        }
    }
    lent.office = before.office;
    let same = *lent == before;
    tally.same("tables behind the profiles", &true, &same, || {
        "all of them".into()
    });
}

/// One model, compared.
fn compared(tally: &mut Tally, names: &Names, [seed, number]: [u64; 2], wrong: Option<How>) {
    let mut random = Random::new(seed, number, 712);
    let random = &mut random;
    let Some((plain, told)) = shaped(names, [seed, number], random) else {
        return;
    };
    tally.begin(format!(
        "model {number} of seed {seed}: {}",
        told.join("; ")
    ));
    let mut lent = around(&plain, random);
    asked(
        tally,
        "answer",
        &mut lent,
        2 + plain.bodies.len(),
        random,
        wrong,
    );
    // Memory that cannot be read, mostly, and garbage that can.
    let mut spoiled = lent.clone();
    spoil(&mut spoiled, random);
    if spoiled.room.iter().zip(LARGEST).all(|(&n, most)| n <= most) && !spoiled.readable() {
        asked(tally, "spoiled", &mut spoiled, 1, random, wrong);
    }
    let mut garbage = wild(random);
    asked(tally, "garbage", &mut garbage, 2, random, wrong);
}

// ---- all of them

fn over(names: &Names, count: u64, seed: u64) -> ExitCode {
    let mut tally = Tally::default();
    let mut number = 0;
    while (tally.models as u64) < count {
        number += 1;
        compared(&mut tally, names, [seed, number], None);
    }
    tally.end()
}

/// Each wrong station must be seen on one of the models.
fn wrongs(names: &Names, count: u64, seed: u64) -> ExitCode {
    let mut unseen = 0;
    for (what, how) in WRONGS.into_iter().chain(BESIDE) {
        let mut tally = Tally::quiet();
        let mut number = 0;
        while (tally.models as u64) < count && tally.differing() == 0 {
            number += 1;
            compared(&mut tally, names, [seed, number], Some(how));
        }
        if tally.differing() == 0 {
            println!("a station that {what}: not seen on {count} models");
            unseen += 1;
        } else {
            println!("a station that {what}: seen on model {number}");
        }
    }
    println!(
        "{} wrong stations, {unseen} not seen",
        WRONGS.len() + BESIDE.len()
    );
    ExitCode::from(u8::from(unseen > 0))
}

fn main() -> ExitCode {
    let words: Vec<String> = env::args().skip(1).collect();
    let (mode, numbers) = match words.split_first() {
        Some((first, rest)) if first.parse::<u64>().is_err() => (first.as_str(), rest),
        _ => ("", &words[..]),
    };
    let numbers: Result<Vec<u64>, _> = numbers.iter().map(|a| a.parse()).collect();
    let (count, seed) = match numbers.as_deref() {
        Ok([]) => (None, 1),
        Ok([count]) => (Some(*count), 1),
        Ok([count, seed]) => (Some(*count), *seed),
        _ => return usage(),
    };
    let names = Names::new();
    match mode {
        "" => over(&names, count.unwrap_or(200_000), seed),
        "wrong" => wrongs(&names, count.unwrap_or(4_000), seed),
        _ => usage(),
    }
}

fn usage() -> ExitCode {
    eprintln!("usage: slabs [models] [seed] | slabs wrong [models] [seed]");
    ExitCode::from(2)
}
