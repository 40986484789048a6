//! Back pointers mended from the lists: W-208 once more, from the request's words alone, over plain models. What the tables are behind a mending is what its changes,
//! applied to the old ones, make of them, both in the records and in the lent words.

use models::plain::{self, Plain};

use crate::image::{Carrier, Kept};
use crate::layout::{LISTS, Lent};
use crate::operations::list;

/// A byte for each region, shell, loop, fin and edge of the largest tables.
pub const MARKS: usize = 128 + 128 + 512 + 4_096 + 2_048;

/// Class, which is the record's table; id; field; place; old value; new value.
pub type Change = [u32; 6];

/// The fields: the parent that a record names, and the fins that an edge lists.
pub const PARENT: u32 = 0;
pub const FINS: u32 = 1;

/// Where the length of an edge's list stands in its record.
pub const LENGTH: usize = LISTS[7].1;

/// The lists that the walk goes down by, from a body to its fins.
pub const DOWN: [usize; 5] = [0, 1, 2, 5, 6];

/// The tables of the records that name one parent: regions, shells, loops and fins.
pub const MENDED: [usize; 4] = [1, 2, 4, 5];

// ---- the rules

/// What a mending can be refused for, besides memory that cannot be read.
#[derive(Clone, Copy, Debug, PartialEq)]
pub enum Test {
    Office,
    Marks,
    Missing,
    Parents,
    Room,
}

/// What the request says, each where a wrong station says something else.
#[derive(Clone, Copy)]
pub struct Rule {
    pub tests: [Test; 5],
    /// How many marks are needed, of the capacities.
    pub marks: fn(&[usize; 10]) -> usize,
    /// Of each table whether a record that is missing is refused; else it is passed over.
    pub missing: [bool; 7],
    /// Whether a missing wire edge is refused too, and a missing fin of an edge's list.
    pub besides: bool,
    /// The tables whose records may have one parent alone.
    pub single: &'static [usize],
    /// Whether that is asked of all records.
    pub all: bool,
    /// Whether an entry of a list counts, of the body that is mended, the list's number, the record that has it, and the place.
    pub counts: fn(&Plain, usize, usize, usize, usize) -> bool,
    /// The tables whose parents are mended.
    pub mended: &'static [usize],
    /// Whether an edge is given its fins.
    pub adds: bool,
    /// Whether a record that is met again is mended again.
    pub again: bool,
    /// How many fins an edge lists at most.
    pub most: usize,
    /// How many entries so many words have room for.
    pub entries: fn(usize) -> usize,
}

impl Rule {
    pub const REQUEST: Self = Self {
        tests: [
            Test::Office,
            Test::Marks,
            Test::Missing,
            Test::Parents,
            Test::Room,
        ],
        marks: |_| MARKS,
        missing: [true; 7],
        besides: false,
        single: &MENDED,
        all: false,
        counts: |_, _, _, _, _| true,
        mended: &MENDED,
        adds: true,
        again: false,
        most: 8,
        entries: |words| words / 6,
    };
}

// ---- the walk

/// A record that the walk comes to, and the one that lists it.
#[derive(Clone, Copy, Debug)]
pub struct Met {
    pub table: usize,
    pub id: usize,
    pub parent: usize,
}

/// The walk of a body: the records that it met, and the first that is missing.
pub struct Walk<'a> {
    plain: &'a Plain,
    rule: &'a Rule,
    used: [usize; 10],
    seen: [Vec<bool>; 10],
    pub met: Vec<Met>,
    pub missing: Option<&'static str>,
}

/// The records that a walk can miss, by table.
const NAMES: [&str; 7] = [
    "body",
    "region",
    "shell",
    "face",
    "loop",
    "fin",
    "fin's edge",
];

impl<'a> Walk<'a> {
    /// "in walk order": as the checker meets the records, regions, shells, faces, loops and fins in list order.
    pub fn of(plain: &'a Plain, office: u32, body: usize, rule: &'a Rule) -> Self {
        let used = plain.used();
        let mut walk = Self {
            plain,
            rule,
            used,
            seen: used.map(|n| vec![false; n]),
            met: Vec::new(),
            missing: None,
        };
        // A body of the other office is missing (W-206).
        let own = plain.bodies.get(body).is_some_and(|r| r.office == office);
        if own {
            walk.below(0, body);
        } else {
            walk.miss(0);
        }
        walk
    }

    fn miss(&mut self, table: usize) {
        if self.rule.missing[table] {
            self.missing.get_or_insert(NAMES[table]);
        }
    }

    /// The lists below a record, each record's once: a face that two shells list has nothing more to change.
    fn below(&mut self, level: usize, parent: usize) {
        let table = LISTS[DOWN[level]].3;
        for &id in list(self.plain, DOWN[level], parent) {
            if id >= self.used[table] {
                self.miss(table);
                continue;
            }
            let again = std::mem::replace(&mut self.seen[table][id], true);
            if again && !self.rule.again {
                continue;
            }
            self.met.push(Met { table, id, parent });
            if table == 5 {
                self.edge_of(id);
            } else {
                self.below(level + 1, id);
            }
        }
        if self.rule.besides && table == 3 {
            self.wires(parent);
        }
    }

    fn edge_of(&mut self, fin: usize) {
        match self.plain.edges.get(self.plain.fins[fin].edge) {
            None => self.miss(6),
            Some(edge) if self.rule.besides && edge.fins.iter().any(|&id| id >= self.used[5]) => {
                self.miss(5);
            }
            _ => {}
        }
    }

    fn wires(&mut self, shell: usize) {
        let wires = &self.plain.shells[shell].wire_edges;
        if wires.iter().any(|&id| id >= self.used[6]) {
            self.miss(6);
        }
    }
}

/// Whether the body reaches a record.
pub fn reaches(plain: &Plain, body: usize, table: usize, id: usize) -> bool {
    if table == 0 {
        return body == id;
    }
    let walk = Walk::of(plain, plain.bodies[body].office, body, &Rule::REQUEST);
    walk.seen[table].get(id).is_some_and(|&seen| seen)
}

// ---- what is refused, and what is changed

/// How often each record of each table is listed by a parent, anywhere in the tables.
fn listed(plain: &Plain, body: usize, rule: &Rule) -> [Vec<usize>; 10] {
    let used = plain.used();
    let mut times = used.map(|n| vec![0; n]);
    for j in DOWN {
        let (table, _, _, of) = LISTS[j];
        for i in 0..used[table] {
            for (place, &id) in list(plain, j, i).iter().enumerate() {
                if id < used[of] && (rule.counts)(plain, body, j, i, place) {
                    times[of][id] += 1;
                }
            }
        }
    }
    times
}

/// "Where a region, shell, loop or fin that the body reaches is listed by two parents anywhere in the tables": the first of them, by table and id.
pub fn two_parents(plain: &Plain, body: usize, met: &[Met], rule: &Rule) -> Option<(usize, usize)> {
    let times = listed(plain, body, rule);
    let tables = rule.single;
    if rule.all {
        let all = tables
            .iter()
            .flat_map(|&table| (0..times[table].len()).map(move |id| (table, id)));
        return all.into_iter().find(|&(table, id)| times[table][id] > 1);
    }
    let met = met.iter().map(|met| (met.table, met.id));
    met.into_iter()
        .find(|&(table, id)| tables.contains(&table) && times[table][id] > 1)
}

/// The parent that a record names.
pub fn parent(plain: &mut Plain, table: usize, id: usize) -> &mut usize {
    match table {
        1 => &mut plain.regions[id].body,
        2 => &mut plain.shells[id].region,
        4 => &mut plain.loops[id].face,
        5 => &mut plain.fins[id].owner,
        _ => unreachable!("table {table} has no parents"),
    }
}

/// The same, read.
fn named(plain: &Plain, table: usize, id: usize) -> usize {
    match table {
        1 => plain.regions[id].body,
        2 => plain.shells[id].region,
        4 => plain.loops[id].face,
        _ => plain.fins[id].owner,
    }
}

/// The changes of the records that were met, in that order; none where an edge has no slot.
fn changed(plain: &Plain, met: &[Met], rule: &Rule) -> Option<Vec<Change>> {
    let mut changes = Vec::new();
    let mut added = vec![0; plain.edges.len()];
    for &Met { table, id, parent } in met {
        if rule.mended.contains(&table) {
            let old = named(plain, table, id);
            if old != parent {
                changes.push([
                    table as u32,
                    id as u32,
                    PARENT,
                    0,
                    old as u32,
                    parent as u32,
                ]);
            }
        }
        if table != 5 || !rule.adds {
            continue;
        }
        let edge = plain.fins[id].edge;
        let Some(record) = plain.edges.get(edge) else {
            continue;
        };
        if !record.fins.contains(&id) {
            let place = record.fins.len() + added[edge];
            if place >= rule.most {
                return None;
            }
            added[edge] += 1;
            changes.push([6, edge as u32, FINS, place as u32, 0, id as u32]);
        }
    }
    Some(changes)
}

/// Why a mending is refused: the number, and in words.
pub type Refused = (u32, String);

/// What is asked: by an office, of a body, to mend it or to tell the changes alone; and what marks, list and count hold.
#[derive(Clone)]
pub struct Mend {
    pub office: u32,
    pub body: usize,
    pub dry: bool,
    pub marks: Vec<u8>,
    pub list: Vec<u32>,
    pub count: usize,
}

impl std::fmt::Display for Mend {
    fn fmt(&self, f: &mut std::fmt::Formatter<'_>) -> std::fmt::Result {
        let what = if self.dry {
            "the changes of"
        } else {
            "mending"
        };
        let [marks, words] = [self.marks.len(), self.list.len()];
        let Self { office, body, .. } = self;
        write!(
            f,
            "office {office}, {what} body {body}, {marks} marks, {words} words"
        )
    }
}

impl Mend {
    /// The changes, or the refusal: "2 for a missing body, region, shell, face, loop, fin or fin's edge, then 1 for two parents, then 8 for an edge or change list
    /// without a slot", behind W-206's 1 and the 8 of short marks.
    pub fn changes(
        &self,
        plain: &Plain,
        room: &[usize; 10],
        rule: &Rule,
    ) -> Result<Vec<Change>, Refused> {
        let walk = Walk::of(plain, self.office, self.body, rule);
        let changes = changed(plain, &walk.met, rule);
        for test in rule.tests {
            let refused = match test {
                Test::Office => (self.office > 1).then(|| (1, "office".into())),
                Test::Marks => (self.marks.len() < (rule.marks)(room)).then(|| (8, "marks".into())),
                Test::Missing => walk.missing.map(|what| (2, what.into())),
                Test::Parents => two_parents(plain, self.body, &walk.met, rule)
                    .map(|(table, _)| (1, format!("two parents of a {}", NAMES[table]))),
                Test::Room => self.no_room(changes.as_deref(), rule),
            };
            if let Some((number, what)) = refused {
                return Err((number, format!("{number} {what}")));
            }
        }
        Ok(changes.expect("each edge has a slot"))
    }

    fn no_room(&self, changes: Option<&[Change]>, rule: &Rule) -> Option<Refused> {
        let entries = (rule.entries)(self.list.len());
        match changes {
            None => Some((8, "an edge".into())),
            Some(changes) if changes.len() > entries => Some((8, "the list".into())),
            Some(_) => None,
        }
    }
}

// ---- applied

/// The changes applied to the records.
pub fn apply(plain: &mut Plain, changes: &[Change]) {
    for &[class, id, field, place, _, new] in changes {
        let (class, id, place, new) = (class as usize, id as usize, place as usize, new as usize);
        match field {
            PARENT => *parent(plain, class, id) = new,
            _ => plain.edges[id].fins.insert(place, new),
        }
    }
}

/// The changes applied to the lent words: a parent is a record's first word, and a fin stands behind the edge's others.
pub fn write(lent: &mut Lent, changes: &[Change]) {
    for &[class, id, field, place, _, new] in changes {
        let at = lent.word_at(class as usize, id as usize);
        if field == PARENT {
            lent.words[at] = new;
        } else {
            lent.words[at + LENGTH] += 1;
            lent.words[at + LENGTH + 1 + place as usize] = new;
        }
    }
}

/// The model that readable memory holds, as plain records.
pub fn held(lent: &Lent) -> Plain {
    let kept = Kept::of(lent);
    let id = |id: Option<u32>| id.map(|id| id as usize);
    Plain {
        version: kept.version,
        precision: kept.precision,
        fins: every(&kept.fins, |r| plain::Fin {
            owner: r.owner as usize,
            edge: r.edge as usize,
            positive: !r.negative,
            pcurve: r.pcurve,
        }),
        edges: every(&kept.edges, |r| plain::Edge {
            start: id(r.start),
            end: id(r.end),
            curve: id(r.curve),
            tolerance: r.tolerance,
            fins: ids(&r.fins),
        }),
        vertices: every(&kept.vertices, |r| plain::Vertex {
            point: r.point,
            tolerance: r.tolerance,
        }),
        curves: every(&kept.curves, carrier),
        surfaces: every(&kept.surfaces, carrier),
        ..upper(&kept)
    }
}

/// Its tables from the bodies to the loops.
fn upper(kept: &Kept) -> Plain {
    let id = |id: Option<u32>| id.map(|id| id as usize);
    Plain {
        bodies: every(&kept.bodies, |r| plain::Body {
            kind: plain::Kind::ALL[r.kind as usize],
            office: r.office,
            regions: ids(&r.regions),
        }),
        regions: every(&kept.regions, |r| plain::Region {
            body: r.body as usize,
            solid: r.solid,
            shells: ids(&r.shells),
        }),
        shells: every(&kept.shells, |r| plain::Shell {
            region: r.region as usize,
            faces: ids(&r.faces),
            wire_edges: ids(&r.wire_edges),
            acorn_vertices: ids(&r.acorn_vertices),
        }),
        faces: every(&kept.faces, |r| plain::Face {
            front: id(r.front),
            back: id(r.back),
            surface: id(r.surface),
            positive: !r.negative,
            loops: ids(&r.loops),
        }),
        loops: every(&kept.loops, |r| plain::Loop {
            face: r.face as usize,
            fins: ids(&r.fins),
        }),
        ..Plain::default()
    }
}

fn ids(list: &[u32]) -> Vec<usize> {
    every(list, |&id| id as usize)
}

fn every<A, B>(records: &[A], plain: impl Fn(&A) -> B) -> Vec<B> {
    records.iter().map(plain).collect()
}

fn carrier(carrier: &Carrier) -> plain::Carrier {
    let halves = |&[a, b, c, d, e, f]: &[f64; 6]| ([a, b, c], [d, e, f]);
    match carrier {
        Carrier::Line(six) => {
            let (origin, way) = halves(six);
            plain::Carrier::Line(origin, way)
        }
        Carrier::Plane(six) => {
            let (origin, way) = halves(six);
            plain::Carrier::Plane(origin, way)
        }
        Carrier::Other => plain::Carrier::Other,
    }
}

// ---- the answer

/// The number that is answered, and all that was lent behind it.
#[derive(Clone)]
pub struct Mended {
    pub number: u32,
    pub count: usize,
    pub list: Vec<u32>,
    pub marks: Vec<u8>,
    pub lent: Lent,
}

impl Mend {
    /// What is lent, with a number.
    pub fn untouched(&self, lent: &Lent, number: u32) -> Mended {
        Mended {
            number,
            count: self.count,
            list: self.list.clone(),
            marks: vec![0; self.marks.len()],
            lent: lent.clone(),
        }
    }

    /// What the station answers.
    pub fn ours(&self, lent: &Lent) -> Mended {
        let mut given = self.untouched(lent, 0);
        given.marks.clone_from(&self.marks);
        given.lent.office = self.office;
        let mut count = [self.count];
        let lists = (&mut given.marks[..], &mut given.list[..]);
        given.number = match self.dry {
            true => given.lent.mend_changes(self.body, lists, &mut count),
            false => given.lent.mend(self.body, lists, &mut count),
        };
        given.count = count[0];
        given
    }

    /// What must be behind a call that finds these changes, or is refused.
    pub fn behind(&self, lent: &Lent, found: &Result<Vec<Change>, Refused>) -> Mended {
        let changes = match found {
            Err((number, _)) => return self.untouched(lent, *number),
            Ok(changes) => changes,
        };
        let mut mended = self.untouched(lent, 0);
        mended.count = changes.len();
        for (place, word) in mended.list.iter_mut().zip(changes.iter().flatten()) {
            *place = *word;
        }
        if !self.dry {
            write(&mut mended.lent, changes);
        }
        mended
    }
}

/// The first place where two slices differ, of as many as both have, and what stands there; or their lengths.
pub(crate) fn first<T: PartialEq + std::fmt::Debug>(
    right: &[T],
    given: &[T],
    what: impl Fn(usize) -> String,
) -> Option<String> {
    let at = right.iter().zip(given).position(|(a, b)| a != b);
    let [a, b] = [right, given].map(<[T]>::len);
    match at {
        Some(at) => Some(format!(
            "{}: expected {:?}, ours {:?}",
            what(at),
            right[at],
            given[at]
        )),
        None => (a != b).then(|| format!("expected {a} of them, ours {b}")),
    }
}

/// The record that a word of the tables is of, and its place there.
pub(crate) fn place(lent: &Lent, at: usize) -> String {
    let records = (0..10).flat_map(|k| (0..lent.room[k]).map(move |i| (k, i)));
    let before = records.take_while(|&(k, i)| lent.word_at(k, i) <= at);
    match before.last() {
        Some((k, i)) => format!("table {k}, record {i}, word {}", at - lent.word_at(k, i)),
        None => format!("word {at} before the tables"),
    }
}

impl Mended {
    /// What differs first, as small as it can be told: the number, the count, a change of the list or a word behind them, a mark, a word of the tables, a float.
    pub fn difference(&self, given: &Self) -> Option<String> {
        let lists = || [self, given].map(|answer| answer.list.chunks(6).collect::<Vec<_>>());
        let floats = |answer: &Self| {
            let bits = answer.lent.reals.iter().map(|x| x.to_bits());
            bits.collect::<Vec<_>>()
        };
        first(&[self.number], &[given.number], |_| "number".into())
            .or_else(|| first(&[self.count], &[given.count], |_| "count".into()))
            .or_else(|| {
                let [right, ours] = lists();
                first(&right, &ours, |k| format!("entry {k} of the list"))
            })
            .or_else(|| first(&self.marks, &given.marks, |k| format!("mark {k}")))
            .or_else(|| {
                let words = |at| place(&self.lent, at);
                first(&self.lent.words, &given.lent.words, words)
            })
            .or_else(|| first(&floats(self), &floats(given), |k| format!("float {k}")))
    }
}
