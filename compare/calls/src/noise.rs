//! Memory full of garbage, and models in it: what a model says lies in its places, and garbage in all others.

use models::damage::{damage, stray};
use models::plain::{Carrier, Edge, Fin, Plain, Version, Vertex};
use models::random::Random;

use crate::image::Kept;
use crate::layout::{LARGEST, LISTS, Lent, VERSION, tags, tolerance};

/// Floats at the borders: zeros, subnormals, the largest, the infinities, and what is not a number in several patterns.
pub const BORDERS: [u64; 16] = [
    0,
    1 << 63,
    1,
    1 << 63 | 1,
    0x000f_ffff_ffff_ffff,
    0x0010_0000_0000_0000,
    0x7fef_ffff_ffff_ffff,
    0xffef_ffff_ffff_ffff,
    0x7ff0_0000_0000_0000,
    0xfff0_0000_0000_0000,
    0x7ff8_0000_0000_0000,
    0xfff8_0000_0000_0000,
    0x7ff8_0000_0000_0001,
    0x7ff0_0000_0000_0001,
    u64::MAX,
    0x3ff0_0000_0000_0000,
];

/// How many numbers stand before the lists of a record, by table, in the words.
const FIELDS: [usize; 10] = [2, 2, 1, 7, 1, 4, 7, 1, 1, 1];

fn float(random: &mut Random) -> f64 {
    match random.below(4) {
        0 => f64::from_bits(random.bits()),
        1 => random.between(-100.0, 100.0),
        _ => f64::from_bits(random.pick(&BORDERS)),
    }
}

/// A tolerance of its own: at least either zero.
fn own(random: &mut Random) -> f64 {
    random.pick(&[
        0.0,
        -0.0,
        5.0e-324,
        0.001,
        0.5,
        3.0,
        f64::MAX,
        f64::MIN_POSITIVE,
    ])
}

fn id(random: &mut Random) -> u32 {
    match random.below(4) {
        0 => random.bits() as u32,
        1 => random.pick(&[u32::MAX, 1 << 31, 256, 0]),
        _ => random.below(9) as u32,
    }
}

/// Memory of these capacities with garbage in every place.
pub fn garbage(room: [usize; 10], random: &mut Random) -> Lent {
    let mut lent = Lent::new(room, 0, 0.0);
    for pair in lent.words.chunks_mut(2) {
        let bits = random.bits();
        pair[0] = bits as u32;
        if let Some(second) = pair.get_mut(1) {
            *second = (bits >> 32) as u32;
        }
    }
    for real in &mut lent.reals {
        *real = float(random);
    }
    lent
}

/// Capacities that so many records fit into: just them, or more.
pub fn room(used: [usize; 10], random: &mut Random) -> [usize; 10] {
    if random.one_in(2000) {
        return LARGEST;
    }
    let spare = random.pick(&[1, 1, 2, 4, 12]);
    std::array::from_fn(|k| (used[k] + random.below(spare)).min(LARGEST[k]))
}

/// How many entries a list has: mostly a few, at times as many as it can hold.
fn entries(limit: usize, random: &mut Random) -> usize {
    match random.below(40) {
        0 => limit,
        1 => limit - 1,
        2..20 => 0,
        _ => random.below(5.min(limit + 1)),
    }
}

/// How many records the tables have: mostly a few, now and then none at all, or as many as there can be.
fn counts(random: &mut Random) -> [usize; 10] {
    let most = random.pick(&[2, 2, 3, 3, 4, 6]);
    let mut used = [0; 10].map(|_| random.below(most));
    match random.below(600) {
        0 => used = LARGEST,
        1..4 => used = [0; 10],
        4..12 => {
            let k = random.below(10);
            used[k] = LARGEST[k];
        }
        _ => {}
    }
    used
}

/// Garbage made readable: every tag, length and tolerance is one, all else is anything.
pub fn wild(random: &mut Random) -> Lent {
    let used = counts(random);
    wild_of(used, room(used, random), random)
}

/// The same with so many records, in memory of these capacities.
pub fn wild_of(used: [usize; 10], room: [usize; 10], random: &mut Random) -> Lent {
    let mut lent = garbage(room, random);
    lent.words[VERSION] = random.pick(&[1, 2]);
    lent.reals[0] = random.pick(&[0.001, 1.0, 5.0e-324, f64::MAX, f64::MIN_POSITIVE]);
    for (k, n) in used.into_iter().enumerate() {
        lent.words[k] = n as u32;
        for i in 0..n {
            record(&mut lent, k, i, random);
        }
    }
    lent
}

/// Any readable record in a slot.
pub fn record(lent: &mut Lent, k: usize, i: usize, random: &mut Random) {
    let at = lent.word_at(k, i);
    for place in 0..FIELDS[k] {
        lent.words[at + place] = id(random);
    }
    for &(place, most) in tags(k) {
        lent.words[at + place] = random.below(most as usize + 1) as u32;
    }
    for &(_, place, limit, _) in LISTS.iter().filter(|list| list.0 == k) {
        let n = entries(limit, random);
        lent.words[at + place] = n as u32;
        for entry in 1..=n.min(8) {
            lent.words[at + place + entry] = id(random);
        }
    }
    if let Some((tag, place)) = tolerance(k)
        && lent.words[at + tag] == 1
    {
        let real = lent.real_at(k, i) + place;
        lent.reals[real] = own(random);
    }
}

/// A model with every table and every list as full as they can be.
pub fn full(random: &mut Random) -> Lent {
    let mut lent = garbage(LARGEST, random);
    lent.words[VERSION] = 1;
    lent.reals[0] = 0.001;
    for (k, n) in LARGEST.into_iter().enumerate() {
        lent.words[k] = n as u32;
        for i in 0..n {
            record(&mut lent, k, i, random);
            let at = lent.word_at(k, i);
            for &(_, place, limit, _) in LISTS.iter().filter(|list| list.0 == k) {
                lent.words[at + place] = limit as u32;
            }
        }
    }
    lent
}

/// Garbage in what a record does not say: the id of none, the float of a session's tolerance, the floats of what is other.
fn unsaid(lent: &mut Lent, random: &mut Random) {
    for k in [3, 6] {
        for i in 0..lent.words[k] as usize {
            let at = lent.word_at(k, i);
            for place in [0, 2, 4] {
                if lent.words[at + place] == 0 {
                    lent.words[at + place + 1] = id(random);
                }
            }
        }
    }
    for k in [6, 7] {
        let (tag, place) = tolerance(k).expect("a table with tolerances");
        for i in 0..lent.words[k] as usize {
            if lent.words[lent.word_at(k, i) + tag] == 0 {
                let real = lent.real_at(k, i) + place;
                lent.reals[real] = float(random);
            }
        }
    }
    for k in [8, 9] {
        for i in 0..lent.words[k] as usize {
            if lent.words[lent.word_at(k, i)] == 2 {
                let real = lent.real_at(k, i);
                lent.reals[real..real + 6].fill_with(|| float(random));
            }
        }
    }
}

/// An edge in two, as a split leaves the tables; nothing is measured, and what has no room is not done.
pub fn split(plain: &mut Plain, edge: usize) -> Option<()> {
    let fins: Vec<usize> = plain.edges.get(edge)?.fins.clone();
    let used = plain.used();
    let owner = |fin: usize| Some(plain.fins.get(fin)?.owner);
    let has_room = |fin: &usize| {
        owner(*fin)
            .and_then(|r| plain.loops.get(r))
            .is_some_and(|r| r.fins.len() + fins.len() <= 1024)
    };
    if used[5] + fins.len() > LARGEST[5]
        || used[6] == LARGEST[6]
        || used[7] == LARGEST[7]
        || !fins.iter().all(has_room)
    {
        return None;
    }
    let (vertex, second) = (used[7], used[6]);
    let start = plain.edges[edge]
        .start
        .and_then(|id| plain.vertices.get(id));
    plain.vertices.push(Vertex {
        point: start.map_or([0.0; 3], |v| v.point.map(|x| x + 0.25)),
        tolerance: Some(plain.precision),
    });
    let first = &mut plain.edges[edge];
    let mut behind = Edge {
        fins: Vec::new(),
        start: Some(vertex),
        ..first.clone()
    };
    first.end = Some(vertex);
    for fin in fins {
        let Fin {
            owner,
            positive,
            pcurve,
            ..
        } = plain.fins[fin];
        let new = plain.fins.len();
        plain.fins.push(Fin {
            owner,
            edge: second,
            positive,
            pcurve,
        });
        behind.fins.push(new);
        let round = &mut plain.loops[owner].fins;
        let at = round.iter().position(|&id| id == fin).unwrap_or(0);
        round.insert((at + usize::from(positive)).min(round.len()), new);
    }
    plain.edges.push(behind);
    Some(())
}

/// A sound model, damaged and split at times, in memory that holds garbage wherever nothing is said; and what it is. It may not be readable,
/// where a damage makes a tolerance that is none.
pub fn shaped(random: &mut Random) -> (Lent, String) {
    let (mut plain, mut told) = Plain::several(random);
    for _ in 0..random.pick(&[0, 0, 0, 1, 1, 2, 4]) {
        let (what, _) = damage(&mut plain, random);
        told += &format!("; {what}");
    }
    if random.one_in(2) {
        stray(&mut plain, random);
    }
    for _ in 0..random.pick(&[0, 0, 1, 2, 6]) {
        let edge = random.below(plain.edges.len() + 1);
        if split(&mut plain, edge).is_some() {
            told += &format!("; edge {edge} split");
        }
    }
    for carrier in plain.curves.iter_mut().chain(&mut plain.surfaces) {
        if random.one_in(40) {
            *carrier = Carrier::Other;
        }
    }
    plain.version = random.pick(&[Version::First, Version::Second]);
    let offices: Vec<u32> = plain
        .bodies
        .iter()
        .map(|_| random.below(2) as u32)
        .collect();
    plain = plain.of(&offices);
    (around(&plain, random), told)
}

/// The model in memory that holds garbage wherever nothing is said of it; in just its own where that cannot be read.
pub fn around(plain: &Plain, random: &mut Random) -> Lent {
    let tight = Lent::holding(plain, plain.used(), 0, 0.0);
    if !tight.readable() {
        return tight;
    }
    within(&tight, room(plain.used(), random), random)
}

/// The model of readable memory in memory of these capacities, with garbage as above.
pub fn within(tight: &Lent, room: [usize; 10], random: &mut Random) -> Lent {
    let mut lent = garbage(room, random);
    Kept::of(tight).over(&mut lent);
    unsaid(&mut lent, random);
    lent
}
