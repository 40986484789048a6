//! The slab profile of a body: W-212 once more, from the request's words alone, over the lent memory as it stands.

use crate::layout::{LISTS, Lent};

type Point = [f64; 3];

/// What is asked: by an office, of a body, with marks that are short or not, what the slots hold, and the lent list.
#[derive(Clone, Debug)]
pub struct Ask {
    pub office: u32,
    pub body: usize,
    pub short: bool,
    pub slots: [u64; 3],
    pub areas: Vec<u64>,
}

/// The number that is answered, the slots and the list behind it, and whether the marks are zero.
#[derive(Clone, Debug, PartialEq)]
pub struct Answer {
    pub number: u32,
    pub slots: [u64; 3],
    pub areas: Vec<u64>,
    pub cleared: bool,
}

impl Ask {
    /// What the station answers. The marks are lent full, at times more of them than there are records.
    pub fn ours(&self, lent: &Lent, mark: u8, more: usize) -> Answer {
        let mut faces = vec![mark; lent.room[3] + more];
        let mut edges = vec![mark; lent.room[6] + more];
        if self.short {
            let marks = if self.body % 2 == 0 && lent.room[3] > 0 {
                &mut faces
            } else {
                &mut edges
            };
            marks.truncate((marks.len() - more).saturating_sub(1));
        }
        let mut slots = self.slots;
        let mut areas = self.areas.clone();
        let number = lent.slab_profile(self.body, &mut faces, &mut edges, &mut areas, &mut slots);
        Answer {
            number,
            slots,
            areas,
            cleared: faces.iter().chain(&edges).all(|&mark| mark == 0),
        }
    }
}

// ---- the rules

/// What the request says, each where a wrong station says something else.
#[derive(Clone, Copy)]
pub struct Rule {
    /// The rules in the order in which they are asked.
    pub order: [usize; 6],
    /// Of the entities that break a rule, in walk order, which is named.
    pub named: fn(&[u32]) -> u32,
    pub axis: fn(Point) -> bool,
    /// Whether two numbers are the same.
    pub same: fn(f64, f64) -> bool,
    /// Of how many coordinates the ends differ in.
    pub along: fn(usize) -> bool,
    pub grid: fn(f64) -> bool,
    /// Of the ends of two fins, whether the first ends where the second starts.
    pub meets: fn(Option<u32>, Option<u32>) -> bool,
    pub wires: bool,
    pub acorns: bool,
    /// Of twice the signed area of a loop.
    pub area: fn(i128) -> u64,
    /// Whether a body that is no solid is refused before it is looked at.
    pub kind: bool,
    /// Whether a short list is refused, of an accepted body or not, that has so many faces.
    pub room: fn(bool, usize, usize) -> bool,
}

impl Rule {
    pub const REQUEST: Self = Self {
        order: [1, 2, 3, 4, 5, 6],
        named: |l| l[0],
        axis,
        same: |a, b| a == b,
        along: |n| n == 1,
        grid,
        meets: |end, start| end.is_some() && end == start,
        wires: true,
        acorns: true,
        area: |twice| (twice.unsigned_abs() / 2) as u64,
        kind: true,
        room: |accepted, faces, lent| accepted && lent < faces,
    };
}

/// "a signed axis"
pub fn axis(n: Point) -> bool {
    let ones = n.iter().filter(|x| x.abs() == 1.0).count();
    let zeros = n.iter().filter(|x| **x == 0.0).count();
    ones == 1 && zeros == 2
}

/// "on W-201's grid": whole sixteenths of a millimetre, at most 2,048 mm in size.
pub fn grid(x: f64) -> bool {
    x.abs() <= 2048.0 && (x * 16.0).fract() == 0.0
}

// ---- the lent memory, record by record

struct Read<'a>(&'a Lent);

impl Read<'_> {
    fn has(&self, k: usize, i: u32) -> bool {
        i < self.0.words[k]
    }

    fn word(&self, k: usize, i: u32, at: usize) -> u32 {
        self.0.words[self.0.word_at(k, i as usize) + at]
    }

    fn optional(&self, k: usize, i: u32, at: usize) -> Option<u32> {
        (self.word(k, i, at) != 0).then(|| self.word(k, i, at + 1))
    }

    fn list(&self, j: usize, i: u32) -> &[u32] {
        let (table, place, ..) = LISTS[j];
        let at = self.0.word_at(table, i as usize) + place;
        let n = self.0.words[at] as usize;
        &self.0.words[at + 1..at + 1 + n]
    }

    fn point(&self, v: u32) -> Option<Point> {
        let at = self.0.real_at(7, v as usize);
        self.has(7, v)
            .then(|| [0, 1, 2].map(|k| self.0.reals[at + k]))
    }

    /// Start and end of a fin.
    fn ends(&self, fin: u32) -> [Option<u32>; 2] {
        let edge = self.word(5, fin, 1);
        let ends = [0, 2].map(|at| self.optional(6, edge, at));
        if self.word(5, fin, 2) == 0 {
            ends
        } else {
            [ends[1], ends[0]]
        }
    }

    fn shells(&self, body: u32) -> Result<Vec<u32>, u32> {
        if !self.has(0, body) {
            return Err(2);
        }
        let mut shells = vec![];
        for &r in self.list(0, body) {
            if !self.has(1, r) {
                return Err(2);
            }
            shells.extend(self.list(1, r));
        }
        if shells.iter().any(|&s| !self.has(2, s)) {
            return Err(2);
        }
        Ok(shells)
    }

    /// A carrier of a table with this tag: none 1, missing 2, another 7.
    fn carried(&self, table: usize, id: Option<u32>, tag: u32) -> Result<u32, u32> {
        let id = id.ok_or(1u32)?;
        if !self.has(table, id) {
            return Err(2);
        }
        if self.word(table, id, 0) != tag {
            return Err(7);
        }
        Ok(id)
    }
}

fn firsts(ids: impl IntoIterator<Item = u32>) -> Vec<u32> {
    let mut met = std::collections::HashSet::new();
    ids.into_iter().filter(|&id| met.insert(id)).collect()
}

/// The walks of a body: faces, edges, vertices. "those of the walks that begin box and volume"
fn walks(read: &Read, body: u32, rule: &Rule) -> Result<[Vec<u32>; 3], u32> {
    let shells = read.shells(body)?;
    let listed = |j: usize| shells.iter().flat_map(move |&s| read.list(j, s).to_vec());
    let faces = firsts(listed(2));
    for &f in &faces {
        if !read.has(3, f) {
            return Err(2);
        }
        read.carried(9, read.optional(3, f, 4), 1)?;
    }
    let mut fins = vec![];
    for &f in &faces {
        for &l in read.list(5, f) {
            if !read.has(4, l) {
                return Err(2);
            }
            fins.extend(read.list(6, l));
        }
    }
    if fins.iter().any(|&i| !read.has(5, i)) {
        return Err(2);
    }
    let round = fins.iter().map(|&i| read.word(5, i, 1));
    let all = firsts(round.clone().chain(listed(3)));
    for &e in &all {
        if !read.has(6, e) {
            return Err(2);
        }
        read.carried(8, read.optional(6, e, 4), 0)?;
    }
    let edges = if rule.wires { all } else { firsts(round) };
    let ends = edges
        .iter()
        .flat_map(|&e| [0, 2].map(|at| read.optional(6, e, at)))
        .flatten();
    let vertices = if rule.acorns {
        firsts(ends.chain(listed(4)))
    } else {
        firsts(ends)
    };
    Ok([faces, edges, vertices])
}

/// All that break a rule, in walk order.
fn breaking(read: &Read, number: usize, walks: &[Vec<u32>; 3], rule: &Rule) -> Vec<u32> {
    let [faces, edges, vertices] = walks;
    let only = |l: &[u32], keeps: &dyn Fn(u32) -> bool| -> Vec<u32> {
        l.iter().copied().filter(|&x| !keeps(x)).collect()
    };
    let normal = |f: u32| {
        let plane = read.optional(3, f, 4).expect("a plane");
        let at = read.0.real_at(9, plane as usize) + 3;
        [0, 1, 2].map(|k| read.0.reals[at + k])
    };
    match number {
        1 => only(faces, &|f| (rule.axis)(normal(f))),
        2 => only(faces, &|f| read.list(5, f).len() == 1),
        3 => {
            let mut open = vec![];
            for &l in faces.iter().flat_map(|&f| read.list(5, f)) {
                let fins = read.list(6, l);
                for (k, &i) in fins.iter().enumerate() {
                    let next = fins[(k + 1) % fins.len()];
                    if !(rule.meets)(read.ends(i)[1], read.ends(next)[0]) {
                        open.push(i);
                    }
                }
            }
            open
        }
        4 => only(edges, &|e| {
            let ends = [0, 2].map(|at| read.optional(6, e, at).and_then(|v| read.point(v)));
            let [Some(p), Some(q)] = ends else {
                return false;
            };
            (rule.along)((0..3).filter(|&k| !(rule.same)(p[k], q[k])).count())
        }),
        5 => only(vertices, &|v| {
            read.point(v).is_some_and(|p| p.into_iter().all(rule.grid))
        }),
        _ => only(faces, &|f| {
            let Some(k) = normal(f).iter().position(|x| x.abs() == 1.0) else {
                return false;
            };
            let fins = read.list(5, f).iter().flat_map(|&l| read.list(6, l));
            let corners: Option<Vec<Point>> = fins
                .map(|&i| read.ends(i)[0].and_then(|v| read.point(v)))
                .collect();
            corners.is_some_and(|l| l.iter().all(|p| (rule.same)(p[k], l[0][k])))
        }),
    }
}

/// Twice the signed area of a face's loop, by the usual sum over the corners: "a face's area is the size of the signed area of its loop"
fn twice(read: &Read, f: u32) -> i128 {
    let plane = read.optional(3, f, 4).expect("a plane");
    let at = read.0.real_at(9, plane as usize) + 3;
    let k = (0..3)
        .find(|&k| read.0.reals[at + k] != 0.0)
        .expect("an axis");
    let [u, v] = [(k + 1) % 3, (k + 2) % 3];
    let fins = read.list(6, read.list(5, f)[0]);
    let corners: Vec<[i128; 2]> = fins
        .iter()
        .map(|&i| {
            let p = read.ends(i)[0]
                .and_then(|v| read.point(v))
                .expect("a corner");
            [u, v].map(|k| (p[k] * 16.0) as i128)
        })
        .collect();
    let n = corners.len();
    (0..n)
        .map(|k| (corners[k], corners[(k + 1) % n]))
        .map(|(p, q)| p[0] * q[1] - q[0] * p[1])
        .sum()
}

/// What is answered by a rule, and in words.
pub fn answer(lent: &Lent, ask: &Ask, rule: &Rule) -> (Answer, String) {
    let told = |number, slots, areas, words: String| {
        let answer = Answer {
            number,
            slots,
            areas,
            cleared: true,
        };
        (answer, words)
    };
    let refused = |number, words: &str| {
        told(
            number,
            ask.slots,
            ask.areas.clone(),
            format!("{number} {words}"),
        )
    };
    if !lent.readable() {
        return refused(9, "unreadable");
    }
    if ask.office > 1 {
        return refused(1, "office");
    }
    if ask.short {
        return refused(8, "marks");
    }
    let read = Read(lent);
    let body = match u32::try_from(ask.body) {
        Ok(b) if read.has(0, b) && read.word(0, b, 1) == ask.office => b,
        _ => return refused(2, "walks"),
    };
    let walks = match walks(&read, body, rule) {
        Ok(walks) => walks,
        Err(n) => return refused(n, "walks"),
    };
    let solid = read.word(0, body, 0) == 3;
    if rule.kind && !solid {
        return refused(6, "kind");
    }
    let broken = rule
        .order
        .into_iter()
        .map(|number| (number, breaking(&read, number, &walks, rule)))
        .find(|(_, l)| !l.is_empty());
    let n = walks[0].len();
    if (rule.room)(broken.is_none(), n, ask.areas.len()) {
        return refused(8, "list");
    }
    if let Some((number, l)) = broken {
        let slots = [number as u64, (rule.named)(&l).into(), 0];
        return told(0, slots, ask.areas.clone(), format!("rule {number}"));
    }
    if !solid {
        return refused(6, "kind");
    }
    let own: Vec<u64> = walks[0]
        .iter()
        .map(|&f| (rule.area)(twice(&read, f)))
        .collect();
    let mut areas = ask.areas.clone();
    let k = n.min(areas.len());
    areas[..k].copy_from_slice(&own[..k]);
    told(0, [0, 0, own.iter().sum()], areas, "accepted".into())
}
