//! A model as a sequence of operations of the Rust's `RawEditor`, carried out on both sides.

use gensolid_core::{Error, Result};
use gensolid_geom::{BCurve, ParamRange};
use gensolid_topo as topo;
use models::original::{self, KINDS, Names};
use models::plain::{Carrier, Kind, Plain, Triple};
use models::random::Random;

use crate::layout::{LISTS, Lent};
use crate::ours::WRONG_ID;
use topo::{FinGeometry, Model};

/// A record without its lists.
#[derive(Clone, Debug)]
pub enum Record {
    Body(Kind),
    Region(usize, bool),
    Shell(usize),
    /// Front, back, surface and sense.
    Face([Option<usize>; 3], bool),
    Loop(usize),
    /// Owner, edge, sense and pcurve mark.
    Fin([usize; 2], bool, bool),
    /// Start, end, curve and tolerance.
    Edge([Option<usize>; 3], Option<f64>),
    Vertex(Triple, Option<f64>),
    Curve(Carrier),
    Surface(Carrier),
}

/// One operation. A list goes by its number, and its record by the id.
#[derive(Clone, Debug)]
pub enum Operation {
    Insert(Record),
    /// The fields of a record, other than its lists.
    Set(usize, Record),
    /// `set_fin_geometry`.
    Mark(usize),
    Append(usize, usize, usize),
    /// Another entry at a place.
    Put(usize, usize, usize, usize),
    Strike(usize, usize, usize),
}

impl Record {
    pub fn table(&self) -> usize {
        match self {
            Self::Body(..) => 0,
            Self::Region(..) => 1,
            Self::Shell(..) => 2,
            Self::Face(..) => 3,
            Self::Loop(..) => 4,
            Self::Fin(..) => 5,
            Self::Edge(..) => 6,
            Self::Vertex(..) => 7,
            Self::Curve(..) => 8,
            Self::Surface(..) => 9,
        }
    }

    /// Record i of a table of the model, without its lists.
    pub fn of(plain: &Plain, k: usize, i: usize) -> Self {
        match k {
            0 => Self::Body(plain.bodies[i].kind),
            1 => Self::Region(plain.regions[i].body, plain.regions[i].solid),
            2 => Self::Shell(plain.shells[i].region),
            3 => {
                let r = &plain.faces[i];
                Self::Face([r.front, r.back, r.surface], r.positive)
            }
            4 => Self::Loop(plain.loops[i].face),
            5 => {
                let r = &plain.fins[i];
                Self::Fin([r.owner, r.edge], r.positive, r.pcurve)
            }
            6 => {
                let r = &plain.edges[i];
                Self::Edge([r.start, r.end, r.curve], r.tolerance)
            }
            7 => Self::Vertex(plain.vertices[i].point, plain.vertices[i].tolerance),
            8 => Self::Curve(plain.curves[i]),
            _ => Self::Surface(plain.surfaces[i]),
        }
    }

    fn tolerance(&mut self) -> Option<&mut Option<f64>> {
        match self {
            Self::Edge(_, tolerance) | Self::Vertex(_, tolerance) => Some(tolerance),
            _ => None,
        }
    }
}

/// List j of record i.
pub fn list(plain: &Plain, j: usize, i: usize) -> &[usize] {
    match j {
        0 => &plain.bodies[i].regions,
        1 => &plain.regions[i].shells,
        2 => &plain.shells[i].faces,
        3 => &plain.shells[i].wire_edges,
        4 => &plain.shells[i].acorn_vertices,
        5 => &plain.faces[i].loops,
        6 => &plain.loops[i].fins,
        _ => &plain.edges[i].fins,
    }
}

// ---- a sequence

/// Operations that make the model, in any order that keeps the ids, with detours that leave nothing
/// behind and with operations that are refused.
pub fn sequence(plain: &Plain, random: &mut Random) -> Vec<Operation> {
    let used = plain.used();
    let mut operations = Vec::new();
    // How many records of each table are there, and the lists that still lack entries, each with the
    // number of those that it has.
    let mut there = [0; 10];
    let mut open: Vec<(usize, usize, usize)> = Vec::new();
    let mut left: Vec<usize> = (0..10).filter(|&k| used[k] > 0).collect();
    loop {
        if random.one_in(8) {
            operations.push(refused(plain, &there, random));
        }
        if random.one_in(8) {
            detour(&mut operations, plain, &there, &open, random);
        }
        if !open.is_empty() && (left.is_empty() || random.one_in(2)) {
            let at = random.below(open.len());
            let (j, i, n) = open[at];
            append(&mut operations, random, (j, i, n), list(plain, j, i)[n]);
            open[at].2 += 1;
            if n + 1 == list(plain, j, i).len() {
                open.swap_remove(at);
            }
        } else if !left.is_empty() {
            let at = random.below(left.len());
            let k = left[at];
            let i = there[k];
            insert(&mut operations, random, i, Record::of(plain, k, i), plain);
            there[k] += 1;
            if there[k] == used[k] {
                left.swap_remove(at);
            }
            for (j, &(table, ..)) in LISTS.iter().enumerate() {
                if table == k && !list(plain, j, i).is_empty() {
                    open.push((j, i, 0));
                }
            }
        } else {
            return operations;
        }
    }
}

/// Inserts a record, at times with other fields first.
fn insert(
    operations: &mut Vec<Operation>,
    random: &mut Random,
    i: usize,
    record: Record,
    plain: &Plain,
) {
    let k = record.table();
    // The Rust has no call that changes a curve or a surface.
    let other = random.below(plain.used()[k]);
    if k >= 8 || !random.one_in(4) {
        let marked = matches!(record, Record::Fin(_, _, true));
        operations.push(Operation::Insert(record));
        if marked && random.one_in(2) {
            operations.push(Operation::Mark(i));
        }
        return;
    }
    let mut first = Record::of(plain, k, other);
    if let Record::Fin(_, _, pcurve) = &mut first {
        // Nothing takes a pcurve away in the Rust.
        *pcurve = false;
    }
    operations.push(Operation::Insert(first));
    operations.push(Operation::Set(i, record));
}

/// Appends an entry, at times through others that are replaced or struck again.
fn append(
    operations: &mut Vec<Operation>,
    random: &mut Random,
    (j, i, n): (usize, usize, usize),
    id: usize,
) {
    let wrong = random.below(50);
    match random.below(8) {
        0 => {
            operations.push(Operation::Append(j, i, wrong));
            operations.push(Operation::Put(j, i, n, id));
        }
        1 if n + 1 < LISTS[j].2 => {
            operations.push(Operation::Append(j, i, wrong));
            operations.push(Operation::Append(j, i, id));
            operations.push(Operation::Strike(j, i, n));
        }
        2 => {
            operations.push(Operation::Append(j, i, wrong));
            operations.push(Operation::Strike(j, i, n));
            operations.push(Operation::Append(j, i, id));
        }
        _ => operations.push(Operation::Append(j, i, id)),
    }
}

/// Other fields for a record that has its lists, and its own again; or another entry, and its own again.
fn detour(
    operations: &mut Vec<Operation>,
    plain: &Plain,
    there: &[usize; 10],
    open: &[(usize, usize, usize)],
    random: &mut Random,
) {
    if let Some(&(j, i, n)) = open.get(random.below(open.len() + 1))
        && n > 0
    {
        let place = random.below(n);
        operations.push(Operation::Put(j, i, place, random.below(50)));
        operations.push(Operation::Put(j, i, place, list(plain, j, i)[place]));
        return;
    }
    let k = random.below(8);
    if there[k] == 0 {
        return;
    }
    let i = random.below(there[k]);
    let own = Record::of(plain, k, i);
    let mut other = Record::of(plain, k, random.below(plain.used()[k]));
    if let (Record::Fin(_, _, pcurve), Record::Fin(_, _, has)) = (&mut other, &own) {
        // Nothing takes a pcurve away in the Rust.
        *pcurve = *has;
    }
    operations.push(Operation::Set(i, other));
    operations.push(Operation::Set(i, own));
}

/// An operation on a record or a place that is not there, or with a tolerance that is none.
fn refused(plain: &Plain, there: &[usize; 10], random: &mut Random) -> Operation {
    let used = plain.used();
    let tables: Vec<usize> = (0..8).filter(|&k| used[k] > 0).collect();
    let k = random.pick(&tables);
    let mut record = Record::of(plain, k, random.below(used[k]));
    let missing = there[k] + random.pick(&[0, 0, 1, 7]);
    let j = random.below(8);
    let last = there[LISTS[j].0];
    let bad = random.pick(&[
        f64::NAN,
        f64::INFINITY,
        -1.0,
        -f64::MIN_POSITIVE,
        f64::NEG_INFINITY,
    ]);
    match random.below(6) {
        0 => Operation::Mark(there[5] + random.below(2)),
        1 => Operation::Append(j, last, random.below(9)),
        2 => Operation::Put(j, last, 0, random.below(9)),
        3 => Operation::Strike(j, random.below(last + 1), 1100 + random.below(9)),
        4 if record.tolerance().is_some() => {
            *record.tolerance().expect("it has one") = Some(bad);
            match random.below(3) {
                0 => Operation::Insert(record),
                1 => Operation::Set(random.below(there[k] + 1), record),
                _ => Operation::Set(missing, record),
            }
        }
        _ => Operation::Set(missing, record),
    }
}

// ---- on the Rust's side

/// What an operation gives: its refusal, or 0.
fn number<T>(answer: Result<T>) -> u32 {
    answer.map_or_else(|error| error.code() as u32, |_| 0)
}

/// Changes a list; where it has no such place, 01's 1.
fn change<T: Copy>(
    list: &mut Vec<T>,
    operation: &Operation,
    id: impl Fn(usize) -> T,
) -> Result<()> {
    let nowhere = || Error::invalid_argument("no such place");
    match *operation {
        Operation::Append(_, _, entry) => list.push(id(entry)),
        Operation::Put(_, _, place, entry) => {
            *list.get_mut(place).ok_or_else(nowhere)? = id(entry);
        }
        Operation::Strike(_, _, place) => {
            if place >= list.len() {
                return Err(nowhere());
            }
            list.remove(place);
        }
        _ => unreachable!("no operation on a list"),
    }
    Ok(())
}

fn edit_list(model: &mut Model, names: &Names, j: usize, i: usize, op: &Operation) -> Result<()> {
    let mut raw = model.raw();
    match j {
        0 => change(&mut raw.body_mut(names.bodies[i])?.regions, op, |id| {
            names.regions[id]
        }),
        1 => change(&mut raw.region_mut(names.regions[i])?.shells, op, |id| {
            names.shells[id]
        }),
        2 => change(&mut raw.shell_mut(names.shells[i])?.faces, op, |id| {
            names.faces[id]
        }),
        3 => change(&mut raw.shell_mut(names.shells[i])?.wire_edges, op, |id| {
            names.edges[id]
        }),
        4 => change(
            &mut raw.shell_mut(names.shells[i])?.acorn_vertices,
            op,
            |id| names.vertices[id],
        ),
        5 => change(&mut raw.face_mut(names.faces[i])?.loops, op, |id| {
            names.loops[id]
        }),
        6 => change(&mut raw.loop_mut(names.loops[i])?.fins, op, |id| {
            names.fins[id]
        }),
        _ => change(&mut raw.edge_mut(names.edges[i])?.fins, op, |id| {
            names.fins[id]
        }),
    }
}

fn mark(model: &mut Model, names: &Names, fin: usize) -> Result<()> {
    let geometry = FinGeometry {
        pcurve: BCurve,
        edge_range: ParamRange::UNBOUNDED,
    };
    model.raw().set_fin_geometry(names.fins[fin], geometry)
}

/// Inserts a record without lists. Lines and planes come from the finished model, since the Rust would
/// make other directions of those that it has made.
fn insert_record(
    model: &mut Model,
    names: &Names,
    finished: &Model,
    record: &Record,
) -> Result<()> {
    match *record {
        Record::Body(kind) => {
            let kind = KINDS[kind as usize].1;
            let regions = vec![];
            model.raw().insert_body(topo::Body { kind, regions })?;
        }
        Record::Region(body, solid) => {
            model.raw().insert_region(topo::Region {
                body: names.bodies[body],
                solid,
                shells: vec![],
            })?;
        }
        Record::Shell(region) => {
            model.raw().insert_shell(topo::Shell {
                region: names.regions[region],
                faces: vec![],
                wire_edges: vec![],
                acorn_vertices: vec![],
            })?;
        }
        Record::Face([front, back, surface], positive) => {
            model.raw().insert_face(topo::Face {
                front: front.map(|id| names.shells[id]),
                back: back.map(|id| names.shells[id]),
                loops: vec![],
                surface: surface.map(|id| names.surfaces[id]),
                sense: original::sense(positive),
            })?;
        }
        Record::Loop(face) => {
            model.raw().insert_loop(topo::Loop {
                face: names.faces[face],
                fins: vec![],
            })?;
        }
        Record::Fin([owner, edge], positive, pcurve) => {
            let fin = model.raw().insert_fin(topo::Fin {
                owner: names.loops[owner],
                edge: names.edges[edge],
                sense: original::sense(positive),
            })?;
            if pcurve {
                mark(model, names, original::slot(fin))?;
            }
        }
        Record::Edge([start, end, curve], tolerance) => {
            let tolerance = original::own(tolerance)?;
            model.raw().insert_edge(topo::Edge {
                fins: vec![],
                start: start.map(|id| names.vertices[id]),
                end: end.map(|id| names.vertices[id]),
                curve: curve.map(|id| names.curves[id]),
                tolerance,
            })?;
        }
        Record::Vertex(point, tolerance) => {
            let tolerance = original::own(tolerance)?;
            let point = original::point(point);
            model
                .raw()
                .insert_vertex(topo::Vertex { point, tolerance })?;
        }
        Record::Curve(_) => {
            let next = names.curves[model.geom().curve_count()];
            let curve = finished.geom().curve(next)?.clone();
            model.raw().geom_mut().add_curve(curve)?;
        }
        Record::Surface(_) => {
            let next = names.surfaces[model.geom().surface_count()];
            let surface = finished.geom().surface(next)?.clone();
            model.raw().geom_mut().add_surface(surface)?;
        }
    }
    Ok(())
}

fn set_record(model: &mut Model, names: &Names, i: usize, record: &Record) -> Result<()> {
    match *record {
        Record::Body(kind) => {
            model.raw().body_mut(names.bodies[i])?.kind = KINDS[kind as usize].1;
        }
        Record::Region(body, solid) => {
            let mut raw = model.raw();
            let r = raw.region_mut(names.regions[i])?;
            r.body = names.bodies[body];
            r.solid = solid;
        }
        Record::Shell(region) => {
            model.raw().shell_mut(names.shells[i])?.region = names.regions[region];
        }
        Record::Face([front, back, surface], positive) => {
            let mut raw = model.raw();
            let r = raw.face_mut(names.faces[i])?;
            r.front = front.map(|id| names.shells[id]);
            r.back = back.map(|id| names.shells[id]);
            r.surface = surface.map(|id| names.surfaces[id]);
            r.sense = original::sense(positive);
        }
        Record::Loop(face) => {
            model.raw().loop_mut(names.loops[i])?.face = names.faces[face];
        }
        Record::Fin([owner, edge], positive, pcurve) => {
            let mut raw = model.raw();
            let r = raw.fin_mut(names.fins[i])?;
            r.owner = names.loops[owner];
            r.edge = names.edges[edge];
            r.sense = original::sense(positive);
            if pcurve {
                mark(model, names, i)?;
            }
        }
        Record::Edge([start, end, curve], tolerance) => {
            let tolerance = original::own(tolerance)?;
            let mut raw = model.raw();
            let r = raw.edge_mut(names.edges[i])?;
            r.start = start.map(|id| names.vertices[id]);
            r.end = end.map(|id| names.vertices[id]);
            r.curve = curve.map(|id| names.curves[id]);
            r.tolerance = tolerance;
        }
        Record::Vertex(point, tolerance) => {
            let tolerance = original::own(tolerance)?;
            let mut raw = model.raw();
            let r = raw.vertex_mut(names.vertices[i])?;
            r.point = original::point(point);
            r.tolerance = tolerance;
        }
        Record::Curve(_) | Record::Surface(_) => unreachable!("the Rust cannot"),
    }
    Ok(())
}

impl Operation {
    pub fn name(&self) -> &'static str {
        match self {
            Self::Insert(_) => "insert",
            Self::Set(..) => "set",
            Self::Mark(_) => "mark",
            Self::Append(..) => "append",
            Self::Put(..) => "put",
            Self::Strike(..) => "strike",
        }
    }

    /// Carries it out on the Rust's side: the refusal's number, or 0.
    pub fn original(&self, model: &mut Model, names: &Names, finished: &Model) -> u32 {
        number(match self {
            Self::Insert(record) => insert_record(model, names, finished, record),
            Self::Set(i, record) => set_record(model, names, *i, record),
            Self::Mark(fin) => mark(model, names, *fin),
            Self::Append(j, i, _) | Self::Put(j, i, _, _) | Self::Strike(j, i, _) => {
                edit_list(model, names, *j, *i, self)
            }
        })
    }

    /// Carries it out through the calls.
    pub fn ours(&self, lent: &mut Lent) -> u32 {
        match self {
            Self::Insert(record) => {
                let next = lent.words[record.table()];
                match lent.insert(record) {
                    Ok(id) if id == next => 0,
                    Ok(_) => WRONG_ID,
                    Err(number) => number,
                }
            }
            Self::Set(i, record) => lent.set(*i, record),
            Self::Mark(fin) => lent.mark(*fin),
            Self::Append(j, i, id) => lent.append(*j, *i, *id as u32),
            Self::Put(j, i, place, id) => lent.put_entry(*j, *i, *place, *id as u32),
            Self::Strike(j, i, place) => lent.strike(*j, *i, *place),
        }
    }

    /// Does it want a slot that the table or the list no longer has? The Rust does not limit them.
    pub fn beyond(&self, lent: &Lent) -> bool {
        match self {
            Self::Insert(record) => {
                let k = record.table();
                lent.words[k] as usize == lent.room[k]
            }
            Self::Append(j, i, _) => {
                let (k, place, limit, _) = LISTS[*j];
                *i < lent.words[k] as usize
                    && lent.words[lent.word_at(k, *i) + place] as usize == limit
            }
            _ => false,
        }
    }
}
