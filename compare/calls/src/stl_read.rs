//! Binary STL read into a body: W-210 once more, from the request's words alone, over the lent memory of `layout.rs`.

use std::collections::HashMap;
use std::collections::hash_map::Entry;
use std::fmt;
use std::ops::Range;

use models::plain::{Kind, Triple};

use crate::images::same;
use crate::layout::{LISTS, Lent};
use crate::mends::{first, place};

pub type Triangle = [Triple; 3];

/// What is asked: by an office, of the bytes of a file, and what the slot holds.
#[derive(Clone)]
pub struct Ask {
    pub office: u32,
    pub slot: u32,
    pub bytes: Vec<u8>,
}

impl fmt::Debug for Ask {
    fn fmt(&self, f: &mut fmt::Formatter) -> fmt::Result {
        let Self {
            office,
            slot,
            bytes,
        } = self;
        let count = bytes.get(80..84);
        write!(
            f,
            "office {office}, slot {slot}, {} bytes, count {count:x?}",
            bytes.len()
        )
    }
}

/// The number that is answered, and the slot and all memory behind it.
#[derive(Clone)]
pub struct Answer {
    pub number: u32,
    pub slot: u32,
    pub lent: Lent,
}

impl Ask {
    /// What the station answers.
    pub fn ours(&self, lent: &Lent) -> Answer {
        let mut lent = lent.by(self.office);
        let mut slot = [self.slot];
        let number = lent.read_stl(&self.bytes, &mut slot);
        Answer {
            number,
            slot: slot[0],
            lent,
        }
    }

    /// What is lent, with a number.
    pub fn untouched(&self, lent: &Lent, number: u32) -> Answer {
        Answer {
            number,
            slot: self.slot,
            lent: lent.by(self.office),
        }
    }
}

impl Answer {
    /// What differs first: the number, the slot, a word of the tables, a float by its bits.
    pub fn difference(&self, given: &Self) -> Option<String> {
        let floats = |answer: &Self| -> Vec<u64> {
            let bits = answer.lent.reals.iter().map(|x| x.to_bits());
            bits.collect()
        };
        first(&[self.number], &[given.number], |_| "number".into())
            .or_else(|| first(&[self.slot], &[given.slot], |_| "slot".into()))
            .or_else(|| {
                if same(&self.lent, &given.lent) {
                    return None;
                }
                let words = |at| place(&self.lent, at);
                first(&self.lent.words, &given.lent.words, words)
                    .or_else(|| first(&floats(self), &floats(given), |k| format!("float {k}")))
            })
    }
}

// ---- the rules

/// What a file can be refused for, besides memory that cannot be read.
#[derive(Clone, Copy, Debug, PartialEq)]
pub enum Test {
    Length,
    Office,
    Finite,
    Corners,
    Room,
    /// Of no request: both numbers of a triangle before the next triangle's.
    Each,
}

/// Corners of one key are one vertex.
pub type Key = [u64; 3];

/// What the request says, each where a wrong station says something else.
#[derive(Clone, Copy)]
pub struct Rule {
    pub tests: [Test; 5],
    pub count: fn([u8; 4]) -> u32,
    /// Of a count, and the bytes of the file.
    pub fits: fn(u32, usize) -> bool,
    /// The corners among the 50 bytes of a triangle.
    pub corners: fn(&[u8]) -> Triangle,
    /// Whether a triangle is not refused with 5, by its bytes and corners.
    pub finite: fn(&[u8], &Triangle) -> bool,
    /// Of a corner, and the session's precision.
    pub key: fn(&Triple, f64) -> Key,
    /// Whether a triangle is refused with 1, by its corners and their keys.
    pub flat: fn(&Triangle, &[Key; 3]) -> bool,
    /// The point that a vertex has, of the one that it had and the corner that is met again.
    pub kept: fn(Triple, Triple) -> Triple,
    /// The slots of the table of vertices whose points are used.
    pub old: fn(&Lent) -> Range<usize>,
    /// The triangles in the order in which they are met.
    pub order: fn(Vec<Triangle>) -> Vec<Triangle>,
    /// A loop's corners, of the triangle's.
    pub round: fn([usize; 3]) -> [usize; 3],
    /// Fins of one pair are of one edge; of a fin's start and end, and its id.
    pub pair: fn(usize, usize, usize) -> [usize; 3],
    /// The edge's start and end, of those of the fin that it is met by.
    pub runs: fn(usize, usize) -> [usize; 2],
    /// Whether a table has room, of its number, its used slots, the new records and its capacity.
    pub room: fn(usize, [usize; 3]) -> bool,
    /// How many fins an edge may have.
    pub most: usize,
}

impl Rule {
    pub const REQUEST: Self = Self {
        tests: [
            Test::Length,
            Test::Office,
            Test::Finite,
            Test::Corners,
            Test::Room,
        ],
        count: u32::from_le_bytes,
        fits,
        corners,
        finite: |_, triangle| triangle.iter().flatten().all(|x| x.is_finite()),
        key: |corner, _| key(corner),
        flat: |_, [a, b, c]| a == b || b == c || c == a,
        kept: |had, _| had,
        old: |_| 0..0,
        order: |triangles| triangles,
        round: |corners| corners,
        pair: |from, to, _| [from.min(to), from.max(to), 0],
        runs: |from, to| [from.min(to), from.max(to)],
        room: |_, [used, new, slots]| used + new <= slots,
        most: 8,
    };
}

/// "an 80-byte header, a 32-bit count, then 50 bytes for each triangle" (W-209)
pub fn fits(count: u32, bytes: usize) -> bool {
    84 + 50 * u128::from(count) == bytes as u128
}

/// Three corners of three coordinates in binary32, behind a normal of as many bytes.
pub fn corners(bytes: &[u8]) -> Triangle {
    let float = |at: usize| f64::from(f32::from_le_bytes([0, 1, 2, 3].map(|k| bytes[at + k])));
    [12, 24, 36].map(|at| [0, 4, 8].map(|axis| float(at + axis)))
}

/// "Both zeros count as equal, [..] and nothing else near is joined": the bits, without the sign of a zero.
pub fn key(corner: &Triple) -> Key {
    corner.map(|x| if x == 0.0 { 0 } else { x.to_bits() })
}

// ---- a body

#[derive(Clone, Debug)]
pub struct Fin {
    pub edge: usize,
    pub positive: bool,
}

#[derive(Clone, Debug)]
pub struct Side {
    pub ends: [usize; 2],
    pub fins: Vec<usize>,
}

/// The records of a file: how many the tables had before, and the new points, edges and fins, with the ids that they get. Each three fins are a loop, and a face.
#[derive(Clone, Debug)]
pub struct Solid {
    pub used: [usize; 10],
    pub points: Vec<Triple>,
    pub sides: Vec<Side>,
    pub fins: Vec<Fin>,
}

pub fn used(lent: &Lent) -> [usize; 10] {
    std::array::from_fn(|k| lent.words[k] as usize)
}

impl Solid {
    /// "a face for each triangle, equal coordinates one vertex, one edge for each unordered pair of vertices, running from the lower id to the higher"
    pub fn of(lent: &Lent, triangles: &[Triangle], rule: &Rule) -> Self {
        let mut solid = Self {
            used: used(lent),
            points: Vec::new(),
            sides: Vec::new(),
            fins: Vec::new(),
        };
        let mut ids = HashMap::new();
        let mut pairs = HashMap::new();
        for id in (rule.old)(lent) {
            let at = lent.real_at(7, id);
            let point = [0, 1, 2].map(|axis| lent.reals[at + axis]);
            ids.entry((rule.key)(&point, lent.reals[0])).or_insert(id);
        }
        for triangle in triangles {
            let corners =
                triangle.map(|corner| solid.vertex(&mut ids, corner, lent.reals[0], rule));
            let corners = (rule.round)(corners);
            for k in 0..3 {
                solid.fin(&mut pairs, corners[k], corners[(k + 1) % 3], rule);
            }
        }
        solid
    }

    fn vertex(
        &mut self,
        ids: &mut HashMap<Key, usize>,
        corner: Triple,
        precision: f64,
        rule: &Rule,
    ) -> usize {
        let first = self.used[7];
        match ids.entry((rule.key)(&corner, precision)) {
            Entry::Vacant(entry) => {
                self.points.push(corner);
                *entry.insert(first + self.points.len() - 1)
            }
            Entry::Occupied(entry) => {
                let id = *entry.get();
                if let Some(point) = id.checked_sub(first).and_then(|k| self.points.get_mut(k)) {
                    *point = (rule.kept)(*point, corner);
                }
                id
            }
        }
    }

    fn fin(&mut self, pairs: &mut HashMap<[usize; 3], usize>, from: usize, to: usize, rule: &Rule) {
        let id = self.used[5] + self.fins.len();
        let side = match pairs.entry((rule.pair)(from, to, id)) {
            Entry::Vacant(entry) => {
                self.sides.push(Side {
                    ends: (rule.runs)(from, to),
                    fins: Vec::new(),
                });
                *entry.insert(self.sides.len() - 1)
            }
            Entry::Occupied(entry) => *entry.get(),
        };
        self.sides[side].fins.push(id);
        self.fins.push(Fin {
            edge: self.used[6] + side,
            positive: self.sides[side].ends == [from, to],
        });
    }

    pub fn faces(&self) -> usize {
        self.fins.len() / 3
    }

    /// How many records of each table it takes: "one void and one solid region, one shell in each"; "There are no surfaces or curves yet".
    pub fn new_records(&self) -> [usize; 10] {
        let [faces, fins] = [self.faces(), self.fins.len()];
        let [edges, vertices] = [self.sides.len(), self.points.len()];
        [1, 2, 2, faces, faces, fins, edges, vertices, 0, 0]
    }

    /// What has no room, in words; none where there is room for all of it.
    fn no_room(&self, lent: &Lent, rule: &Rule) -> Option<String> {
        let new = self.new_records();
        let full = |&k: &usize| !(rule.room)(k, [self.used[k], new[k], lent.room[k]]);
        let mut what: Vec<_> = (0..10).filter(full).map(|k| NAMES[k]).collect();
        if self.sides.iter().any(|side| side.fins.len() > rule.most) {
            what.push("a ninth fin");
        }
        match what[..] {
            [] => None,
            [one] => Some(format!("{one} alone")),
            _ => Some("several".into()),
        }
    }

    /// Whether the memory can hold it, whatever a rule says.
    fn lies_in(&self, lent: &Lent) -> bool {
        self.no_room(lent, &Rule::REQUEST).is_none()
    }

    /// Puts the records behind those that are there: the void, its shell, the solid, its shell, and of each triangle a face, a loop and three fins.
    pub fn over(&self, lent: &mut Lent, office: u32) {
        let [body, region, shell, face, round, fin, edge, vertex, ..] = self.used;
        put(lent, 0, body, &[Kind::Solid as u32, office], &[]);
        list(lent, 0, body, [region, region + 1]);
        for (k, solid) in [(0, 0), (1, 1)] {
            put(lent, 1, region + k, &[body as u32, solid], &[]);
            list(lent, 1, region + k, [shell + k]);
            put(lent, 2, shell + k, &[(region + k) as u32], &[]);
            list(lent, 2, shell + k, face..face + self.faces());
        }
        for k in 0..self.faces() {
            // "faces have its shell in front, the solid's at the back"
            let [front, back] = [shell as u32, shell as u32 + 1];
            put(lent, 3, face + k, &[1, front, 1, back, 0, 0, 0], &[]);
            list(lent, 5, face + k, [round + k]);
            put(lent, 4, round + k, &[(face + k) as u32], &[]);
            list(lent, 6, round + k, (0..3).map(|place| fin + 3 * k + place));
        }
        for (k, r) in self.fins.iter().enumerate() {
            let owner = (round + k / 3) as u32;
            let fields = [owner, r.edge as u32, (!r.positive).into(), 0];
            put(lent, 5, fin + k, &fields, &[]);
        }
        for (k, r) in self.sides.iter().enumerate() {
            let [start, end] = r.ends.map(|id| id as u32);
            put(lent, 6, edge + k, &[1, start, 1, end, 0, 0, 0], &[0.0]);
            list(lent, 7, edge + k, r.fins.iter().copied());
        }
        for (k, &[x, y, z]) in self.points.iter().enumerate() {
            put(lent, 7, vertex + k, &[0], &[x, y, z, 0.0]);
        }
        let counts = self.used.iter().zip(self.new_records());
        for (word, (used, new)) in lent.words.iter_mut().zip(counts) {
            *word = (used + new) as u32;
        }
    }

    /// What a report with geometry off has of it, as reason, kind, class and id: "There are no surfaces", and "An edge used once or thrice is left to the checker".
    pub fn faults(&self) -> Vec<[u64; 4]> {
        let faces = (0..self.faces()).map(|k| [9, 8, 3, (self.used[3] + k) as u64]);
        let sides = self.sides.iter().enumerate().filter_map(|(k, side)| {
            let id = (self.used[6] + k) as u64;
            match side.fins[..] {
                [a, b] => {
                    let [a, b] = [a, b].map(|fin| self.fins[fin - self.used[5]].positive);
                    (a == b).then_some([20, 7, 6, id])
                }
                _ => Some([19, 6, 6, id]),
            }
        });
        faces.chain(sides).collect()
    }
}

const NAMES: [&str; 10] = [
    "bodies", "regions", "shells", "faces", "loops", "fins", "edges", "vertices", "curves",
    "surfaces",
];

/// A record with empty lists, as an insert writes it: zeros behind its fields.
fn put(lent: &mut Lent, k: usize, i: usize, fields: &[u32], floats: &[f64]) {
    let [at, end] = [i, i + 1].map(|i| lent.word_at(k, i));
    lent.words[at..end].fill(0);
    lent.words[at..at + fields.len()].copy_from_slice(fields);
    let at = lent.real_at(k, i);
    lent.reals[at..at + floats.len()].copy_from_slice(floats);
}

fn list(lent: &mut Lent, j: usize, i: usize, ids: impl IntoIterator<Item = usize>) {
    let (table, length, ..) = LISTS[j];
    let at = lent.word_at(table, i) + length;
    let mut n = 0;
    for id in ids {
        n += 1;
        lent.words[at + n] = id as u32;
    }
    lent.words[at] = n as u32;
}

// ---- a file

/// The triangles of a file: as many as are counted, of those that are there.
fn triangles<'a>(bytes: &'a [u8], rule: &'a Rule) -> impl Iterator<Item = (&'a [u8], Triangle)> {
    let count = bytes
        .get(80..84)
        .map_or(0, |four| (rule.count)(four.try_into().expect("four bytes")));
    let parts = bytes.get(84..).unwrap_or_default().chunks_exact(50);
    let parts = parts.take(count as usize);
    parts.map(|part| (part, (rule.corners)(part)))
}

/// Why a file is refused: the number, and in words.
pub type Refused = (u32, String);

/// The records of a file by a rule, or the refusal: "9 for a length that does not fit the count, then 5 for a coordinate that is not finite, then 1 for a triangle with
/// two equal corners, then 8 for capacity, an edge's ninth fin included", with W-206's "1 for an office above 1, right after 9".
pub fn solid(lent: &Lent, ask: &Ask, rule: &Rule) -> Result<Solid, Refused> {
    if !lent.readable() {
        return Err((9, "9 tables".into()));
    }
    let bytes = &ask.bytes;
    let fits = bytes.get(80..84).is_some_and(|four| {
        let count = (rule.count)(four.try_into().expect("four bytes"));
        (rule.fits)(count, bytes.len())
    });
    let all: Vec<_> = triangles(bytes, rule).collect();
    let infinite = |(part, t): &(&[u8], Triangle)| !(rule.finite)(part, t);
    let flat = |t: &Triangle| {
        let keys = t.map(|corner| (rule.key)(&corner, lent.reals[0]));
        (rule.flat)(t, &keys)
    };
    let mut built = None;
    for test in rule.tests {
        let refused = match test {
            Test::Length => (!fits).then(|| (9, "length".into())),
            Test::Office => (ask.office > 1).then(|| (1, "office".into())),
            Test::Finite => all.iter().any(infinite).then(|| (5, "not finite".into())),
            Test::Corners => (all.iter().any(|(_, t)| flat(t))).then(|| (1, "corners".into())),
            Test::Each => all.iter().find_map(|part| match part {
                part if infinite(part) => Some((5, "not finite".into())),
                (_, t) if flat(t) => Some((1, "corners".into())),
                _ => None,
            }),
            Test::Room => {
                let met = (rule.order)(all.iter().map(|&(_, t)| t).collect());
                let solid = built.insert(Solid::of(lent, &met, rule));
                solid.no_room(lent, rule).map(|what| (8, what))
            }
        };
        if let Some((number, what)) = refused {
            return Err((number, format!("{number} {what}")));
        }
    }
    Ok(built.expect("room is tested"))
}

/// What is answered by a rule, with the records or the refusal.
pub fn answer(lent: &Lent, ask: &Ask, rule: &Rule) -> (Answer, Result<Solid, Refused>) {
    let found = solid(lent, ask, rule);
    let number = found.as_ref().err().map_or(0, |refused| refused.0);
    let mut answer = ask.untouched(lent, number);
    if let Ok(solid) = &found {
        answer.slot = solid.used[0] as u32;
        if solid.lies_in(lent) {
            solid.over(&mut answer.lent, ask.office);
        }
    }
    (answer, found)
}

/// The file in the memory, without a copy of it: the new body's id. For the benchmark.
pub fn read(lent: &mut Lent, ask: &Ask) -> Result<usize, Refused> {
    let solid = solid(lent, ask, &Rule::REQUEST)?;
    solid.over(lent, ask.office);
    Ok(solid.used[0])
}
