//! The lent memory as docs and 01 describe it, laid out and tested with none of the calls: what a model
//! looks like in it, and whether it is readable.

use models::plain::{Carrier, Plain};

/// 01's largest tables.
pub const LARGEST: [usize; 10] = [64, 128, 128, 512, 512, 4096, 2048, 2048, 2048, 512];

/// Where the model's version stands among the words: behind the ten counts. The tables follow it.
pub const VERSION: usize = 10;
const TABLES: usize = 11;

/// How many words and floats a record takes, by table.
const WORDS: [usize; 10] = [19, 19, 836, 24, 1026, 4, 16, 1, 1, 1];
const REALS: [usize; 10] = [0, 0, 0, 0, 0, 0, 1, 4, 6, 6];

/// The eight lists: the table, the place of the length in its records, the limit, and the table that the
/// entries are of.
pub const LISTS: [(usize, usize, usize, usize); 8] = [
    (0, 2, 16, 1),
    (1, 2, 16, 2),
    (2, 1, 512, 3),
    (2, 514, 256, 6),
    (2, 771, 64, 7),
    (3, 7, 16, 4),
    (4, 1, 1024, 5),
    (6, 7, 8, 5),
];

/// What a caller lends: the capacities, the words, the floats. And the office that the calls name (W-206), which is no part of the memory.
#[derive(Clone)]
pub struct Lent {
    pub room: [usize; 10],
    pub words: Vec<u32>,
    pub reals: Vec<f64>,
    pub office: u32,
}

impl PartialEq for Lent {
    /// The memory by bits, where every NaN counts as the same.
    fn eq(&self, other: &Self) -> bool {
        let bits = |x: &f64| models::plain::bits(*x);
        self.room == other.room
            && self.words == other.words
            && self.reals.iter().map(bits).eq(other.reals.iter().map(bits))
    }
}

/// Of each tag in the records of a table: its place and the greatest that is known.
pub fn tags(k: usize) -> &'static [(usize, u32)] {
    match k {
        0 => &[(0, 4), (1, 1)],
        1 => &[(1, 1)],
        3 => &[(0, 1), (2, 1), (4, 1), (6, 1)],
        5 => &[(2, 1), (3, 1)],
        6 => &[(0, 1), (2, 1), (4, 1), (6, 1)],
        7 => &[(0, 1)],
        8 | 9 => &[(0, 2)],
        _ => &[],
    }
}

/// Of a table's tolerance: the place of its tag, and its own among the floats.
pub fn tolerance(k: usize) -> Option<(usize, usize)> {
    match k {
        6 => Some((6, 0)),
        7 => Some((0, 3)),
        _ => None,
    }
}

fn needed(from: usize, strides: &[usize; 10], room: &[usize; 10]) -> usize {
    from + strides.iter().zip(room).map(|(s, n)| s * n).sum::<usize>()
}

impl Lent {
    /// Memory of these capacities, with these words and floats in it.
    pub fn new(room: [usize; 10], word: u32, real: f64) -> Self {
        Self {
            room,
            words: vec![word; needed(TABLES, &WORDS, &room)],
            reals: vec![real; needed(1, &REALS, &room)],
            office: 0,
        }
    }

    /// The same memory, asked by an office.
    pub fn by(&self, office: u32) -> Self {
        Self {
            office,
            ..self.clone()
        }
    }

    /// Where record i of table k begins among the words.
    pub fn word_at(&self, k: usize, i: usize) -> usize {
        let before: usize = (0..k).map(|k| WORDS[k] * self.room[k]).sum();
        TABLES + before + WORDS[k] * i
    }

    pub fn real_at(&self, k: usize, i: usize) -> usize {
        let before: usize = (0..k).map(|k| REALS[k] * self.room[k]).sum();
        1 + before + REALS[k] * i
    }

    fn put(&mut self, k: usize, i: usize, words: &[u32], reals: &[f64]) {
        let at = self.word_at(k, i);
        self.words[at..at + words.len()].copy_from_slice(words);
        let at = self.real_at(k, i);
        self.reals[at..at + reals.len()].copy_from_slice(reals);
    }

    fn put_list(&mut self, j: usize, i: usize, list: &[usize]) {
        let (table, place, ..) = LISTS[j];
        let at = self.word_at(table, i) + place;
        self.words[at] = list.len() as u32;
        for (k, &id) in list.iter().enumerate() {
            self.words[at + 1 + k] = id as u32;
        }
    }

    /// The model in memory of these capacities, which holds noise wherever nothing is said of it. The calls name the office of its first body, which is that of
    /// all where the model is one office's.
    pub fn holding(plain: &Plain, room: [usize; 10], word: u32, real: f64) -> Self {
        let mut lent = Self::new(room, word, real);
        lent.office = plain.bodies.first().map_or(0, |r| r.office);
        for (k, n) in plain.used().into_iter().enumerate() {
            lent.words[k] = n as u32;
        }
        lent.words[VERSION] = plain.version as u32;
        lent.reals[0] = plain.precision;
        let optional = |id: Option<usize>| id.map_or([0, 0], |id| [1, id as u32]);
        let own = |t: Option<f64>| (u32::from(t.is_some()), t.unwrap_or(0.0));
        let sense = |positive: bool| u32::from(!positive);
        for (i, r) in plain.bodies.iter().enumerate() {
            lent.put(0, i, &[r.kind as u32, r.office], &[]);
            lent.put_list(0, i, &r.regions);
        }
        for (i, r) in plain.regions.iter().enumerate() {
            lent.put(1, i, &[r.body as u32, r.solid.into()], &[]);
            lent.put_list(1, i, &r.shells);
        }
        for (i, r) in plain.shells.iter().enumerate() {
            lent.put(2, i, &[r.region as u32], &[]);
            lent.put_list(2, i, &r.faces);
            lent.put_list(3, i, &r.wire_edges);
            lent.put_list(4, i, &r.acorn_vertices);
        }
        for (i, r) in plain.faces.iter().enumerate() {
            let ids = [r.front, r.back, r.surface].map(optional).concat();
            lent.put(3, i, &[&ids[..], &[sense(r.positive)]].concat(), &[]);
            lent.put_list(5, i, &r.loops);
        }
        for (i, r) in plain.loops.iter().enumerate() {
            lent.put(4, i, &[r.face as u32], &[]);
            lent.put_list(6, i, &r.fins);
        }
        for (i, r) in plain.fins.iter().enumerate() {
            let fields = [
                r.owner as u32,
                r.edge as u32,
                sense(r.positive),
                r.pcurve.into(),
            ];
            lent.put(5, i, &fields, &[]);
        }
        for (i, r) in plain.edges.iter().enumerate() {
            let ids = [r.start, r.end, r.curve].map(optional).concat();
            let (tag, own) = own(r.tolerance);
            lent.put(6, i, &[&ids[..], &[tag]].concat(), &[own]);
            lent.put_list(7, i, &r.fins);
        }
        for (i, r) in plain.vertices.iter().enumerate() {
            let [x, y, z] = r.point;
            let (tag, own) = own(r.tolerance);
            lent.put(7, i, &[tag], &[x, y, z, own]);
        }
        for (k, carriers) in [(8, &plain.curves), (9, &plain.surfaces)] {
            for (i, r) in carriers.iter().enumerate() {
                let (tag, six) = carrier(r);
                lent.put(k, i, &[tag], &six);
            }
        }
        lent
    }

    /// The part of 01's test that asks nothing of what the memory holds: capacities that 01 has, and memory that is
    /// long enough for them.
    pub fn spacious(&self) -> bool {
        let Self {
            room, words, reals, ..
        } = self;
        room.iter().zip(LARGEST).all(|(&n, most)| n <= most)
            && words.len() >= needed(TABLES, &WORDS, room)
            && reals.len() >= needed(1, &REALS, room)
    }

    /// 01's test of refusal 9, and W-211's: a version that no model is made with; and W-206's: an office that is none, a tag as others are.
    pub fn readable(&self) -> bool {
        if !self.spacious() || (0..10).any(|k| self.words[k] as usize > self.room[k]) {
            return false;
        }
        let precision = self.reals[0];
        matches!(self.words[VERSION], 1 | 2)
            && precision.is_finite()
            && precision > 0.0
            && (0..10).all(|k| self.table_readable(k))
    }

    fn table_readable(&self, k: usize) -> bool {
        let tolerance = tolerance(k);
        (0..self.words[k] as usize).all(|i| {
            let (at, real) = (self.word_at(k, i), self.real_at(k, i));
            let ok = |t: f64| t.is_finite() && t >= 0.0;
            tags(k).iter().all(|&(p, most)| self.words[at + p] <= most)
                && LISTS
                    .iter()
                    .filter(|list| list.0 == k)
                    .all(|list| self.words[at + list.1] as usize <= list.2)
                && tolerance
                    .is_none_or(|(p, q)| self.words[at + p] == 0 || ok(self.reals[real + q]))
        })
    }
}

/// A carrier's tag and six floats, zeros of what is other.
pub fn carrier(carrier: &Carrier) -> (u32, [f64; 6]) {
    let six = |[a, b, c]: [f64; 3], [d, e, f]: [f64; 3]| [a, b, c, d, e, f];
    match *carrier {
        Carrier::Line(o, d) => (0, six(o, d)),
        Carrier::Plane(o, n) => (1, six(o, n)),
        Carrier::Other => (2, [0.0; 6]),
    }
}
