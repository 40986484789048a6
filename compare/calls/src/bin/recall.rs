//! Writes the list that the program recall replays: the trial stone and small models, sound and damaged, laid out in
//! lent memory, and what the Rust answers about each. `compare/run recall > crates/replay_models/stdin`; compare/README.md has the rows.

use calls::layout::{LISTS, Lent};
use models::original::{self, Names, Told};
use models::plain::{Body, Carrier, Edge, Face, Fin, Kind, Loop, Plain, Region, Shell, Version, Vertex, bits};
use models::random::Random;
use models::{Made, Sort, either, fraction, made};

/// The capacities that the program lends.
const ROOM: [usize; 10] = [4, 8, 8, 24, 24, 128, 64, 64, 64, 24];

const SEED: u64 = 1;
const MODELS: usize = 160;
/// How many of them are there once more, of version 2.
const SECOND: usize = 32;

fn row(op: u32, words: &[u32]) {
    print!("{op:02x}");
    for k in 0..7 {
        print!(" {:08x}", words.get(k).copied().unwrap_or(0));
    }
    println!();
}

fn halves(x: u64) -> [u32; 2] {
    [(x >> 32) as u32, x as u32]
}

/// Floats into the program's six places for them: those that a question takes, or that its answer has.
fn load(floats: &[u64]) {
    for (k, three) in floats.chunks(3).enumerate() {
        let words: Vec<u32> = three.iter().flat_map(|&x| halves(x)).collect();
        row(3, &[&[3 * k as u32], &words[..]].concat());
    }
}

/// The sum of a list of numbers: each is added to 31 times what was there, all by a prime.
fn sum(numbers: impl IntoIterator<Item = u32>) -> u32 {
    let add = |h: u64, x: u32| (h * 31 + u64::from(x)) % 4_294_967_291;
    numbers.into_iter().fold(0, add) as u32
}

fn memory(lent: &Lent) -> [u32; 2] {
    let reals = lent.reals.iter().flat_map(|&x| halves(bits(x)));
    [sum(lent.words.iter().copied()), sum(reals)]
}

/// The memory, zero wherever nothing is said of it.
fn laid_out(lent: &Lent) {
    row(0, &[]);
    let mut at = 0;
    while at < lent.words.len() {
        if lent.words[at] == 0 {
            at += 1;
            continue;
        }
        let end = lent.words.len().min(at + 6);
        row(1, &[&[at as u32], &lent.words[at..end]].concat());
        at = end;
    }
    let mut at = 0;
    while at < lent.reals.len() {
        if lent.reals[at].to_bits() == 0 {
            at += 1;
            continue;
        }
        let end = lent.reals.len().min(at + 3);
        let words: Vec<u32> = lent.reals[at..end].iter().flat_map(|&x| halves(bits(x))).collect();
        row(2, &[&[at as u32], &words[..]].concat());
        at = end;
    }
}

fn number(told: &Told) -> u32 {
    told.numbers[0] as u32
}

fn ids(told: &Told) -> Vec<u32> {
    told.numbers[1..].iter().map(|&n| n as u32).collect()
}

/// An answer of floats, behind its floats.
fn measured(op: u32, id: usize, told: &Told) {
    load(&told.numbers[1..]);
    row(op, &[id as u32, number(told)]);
}

fn checked(model: &gensolid_topo::Model, names: &Names, body: usize, geometry: bool, samples: usize) {
    let Ok(told) = original::report(model, names, body, geometry, samples) else {
        return;
    };
    let answer = match told.numbers[..] {
        [0, unchecked, ref faults @ ..] => {
            // The program lends a list of sixteen faults: kind, class, id, reason.
            let words = faults.chunks(4).take(16).flat_map(|f| [f[1], f[2], f[3], f[0]]);
            [0, faults.len() as u32 / 4, unchecked as u32, sum(words.map(|n| n as u32))]
        }
        ref refused => [refused[0] as u32, 0, 0, 0],
    };
    row(8, &[&[body as u32, geometry.into(), samples as u32], &answer[..]].concat());
}

fn asked(model: &gensolid_topo::Model, names: &Names, plain: &Plain, random: &mut Random) {
    for body in 0..=plain.bodies.len() {
        for (which, told) in original::walks(model, names, body).iter().enumerate() {
            let list = ids(told);
            row(4, &[which as u32, body as u32, number(told), list.len() as u32, sum(list)]);
        }
        measured(6, body, &original::boxed(model, names, body));
        measured(7, body, &original::volume(model, names, body));
        checked(model, names, body, false, 0);
        for samples in [0, 3, 7] {
            checked(model, names, body, true, samples);
        }
    }
    for _ in 0..3 {
        let fin = random.below(plain.fins.len() + 1);
        let told = original::ends(model, names, fin);
        row(5, &[&[fin as u32, number(&told)], &ids(&told)[..]].concat());
        let edge = random.below(plain.edges.len() + 1);
        measured(9, edge, &original::bounds(model, names, edge));
    }
}

/// 01's trial stone, as meaning's Stone.antt has it. Edge 0 is A.
fn stone() -> Plain {
    const EDGES: [[usize; 2]; 12] = [
        [0, 1], [2, 3], [4, 5], [6, 7], [0, 2], [1, 3], [4, 6], [5, 7], [0, 4], [1, 5], [2, 6], [3, 7],
    ];
    const LOOPS: [[usize; 4]; 6] = [
        [4, 1, 5, 0], [2, 7, 3, 6], [0, 9, 2, 8], [10, 3, 11, 1], [8, 6, 10, 4], [5, 11, 7, 9],
    ];
    const BASES: [usize; 6] = [0, 4, 0, 2, 0, 1];
    let corner = |i: usize| [[0.0, 4.0][i & 1], [0.0, 3.0][i >> 1 & 1], [0.0, 2.0][i >> 2]];
    let axis = |k: usize, way: f64| std::array::from_fn(|i| if i == k { way } else { 0.0 });
    let fins: Vec<Fin> = (0..24)
        .map(|i| Fin { owner: i / 4, edge: LOOPS[i / 4][i % 4], positive: i % 4 < 2, pcurve: false })
        .collect();
    Plain {
        version: Version::First,
        precision: 0.001,
        bodies: vec![Body { kind: Kind::Solid, office: 0, regions: vec![0, 1] }],
        regions: (0..2).map(|i| Region { body: 0, solid: i == 1, shells: vec![i] }).collect(),
        shells: (0..2)
            .map(|i| Shell { region: i, faces: (0..6).collect(), wire_edges: vec![], acorn_vertices: vec![] })
            .collect(),
        faces: (0..6)
            .map(|i| Face { front: Some(0), back: Some(1), loops: vec![i], surface: Some(i), positive: true })
            .collect(),
        loops: (0..6).map(|i| Loop { face: i, fins: (4 * i..4 * i + 4).collect() }).collect(),
        edges: (0..12)
            .map(|i| Edge {
                fins: (0..24).filter(|&k| fins[k].edge == i).collect(),
                start: Some(EDGES[i][0]),
                end: Some(EDGES[i][1]),
                curve: Some(i),
                tolerance: None,
            })
            .collect(),
        vertices: (0..8).map(|i| Vertex { point: corner(i), tolerance: None }).collect(),
        curves: (0..12).map(|i| Carrier::Line(corner(EDGES[i][0]), axis(i / 4, 1.0))).collect(),
        surfaces: (0..6)
            .map(|i| Carrier::Plane(corner(BASES[i]), axis(2 - i / 2, [-1.0, 1.0][i % 2])))
            .collect(),
        fins,
    }
}

/// A split on both memories, and all memory behind it.
fn cut(model: &mut gensolid_topo::Model, names: &Names, edge: usize, part: f64) {
    let told = original::split(model, names, edge, part);
    load(&[bits(part)]);
    let made = ids(&told).get(1..).unwrap_or(&[0, 0]).to_vec();
    row(10, &[&[edge as u32, number(&told)], &made[..]].concat());
    row(11, &memory(&Lent::holding(&original::read(model, names), ROOM, 0, 0.0)));
}

/// The rows of 01's 'Trial stone'.
fn trial(names: &Names) {
    let mut random = Random::new(SEED, 0, 98);
    let whole = stone();
    let mut struck = stone();
    struck.loops[0].fins.pop();
    let mut hollow = stone();
    hollow.bodies[0].regions.pop();
    hollow.regions[0].shells.pop();
    for mut plain in [whole, struck, hollow] {
        let mut model = original::build(&mut plain, names).expect("the Rust makes it");
        laid_out(&Lent::holding(&plain, ROOM, 0, 0.0));
        asked(&model, names, &plain, &mut random);
        for part in [0.0, 1.0, f64::NAN, 2f64.powi(-12), 2f64.powi(-11), 0.25] {
            cut(&mut model, names, 0, part);
        }
        asked(&model, names, &original::read(&model, names), &mut random);
    }
}

/// A model, all that is asked of it, and four splits.
fn whole(names: &Names, made: &Made, random: &mut Random) {
    let (mut model, mut plain) = (made.model.clone(), made.plain.clone());
    let lent = Lent::holding(&plain, ROOM, 0, 0.0);
    assert!(lent.readable() && LISTS.len() == 8);
    laid_out(&lent);
    asked(&model, names, &plain, random);
    for k in 0..4 {
        let near = made.near.get(k).copied();
        let edge = near.unwrap_or_else(|| random.below(plain.edges.len() + 1));
        let bounds = original::bounds(&model, names, edge);
        let part = if k == 0 { 0.5 } else { fraction(random, plain.precision, &bounds.numbers) };
        cut(&mut model, names, edge, part);
        plain = original::read(&model, names);
    }
    checked(&model, names, 0, true, 3);
}

fn main() {
    let names = Names::new();
    trial(&names);
    let fits = |plain: &Plain| {
        let used = plain.used();
        let spare = [0, 0, 0, 0, 0, 32, 4, 4, 0, 0];
        (0..10).all(|k| used[k] + spare[k] <= ROOM[k])
    };
    let mut models: Vec<(u64, Made)> = (0..)
        .filter_map(|n| made(&names, Sort::Small, SEED, n, None).map(|made| (n, made)))
        .filter(|(_, made)| fits(&made.plain))
        .take(MODELS)
        .collect();
    for (n, made) in &models {
        whole(&names, made, &mut Random::new(SEED, *n, 99));
    }
    models.truncate(SECOND);
    original::by(Version::Second, || {
        for (n, made) in &models {
            let mut random = Random::new(SEED, *n, 97);
            if let Some(made) = either(made, &names, &mut random) {
                whole(&names, &made, &mut random);
            }
        }
    });
}
