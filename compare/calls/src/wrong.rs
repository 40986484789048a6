//! Wrong stations: each does another operation in the place of one, or gives another answer. The
//! comparison must see every one of them.

use models::plain::Carrier;

use crate::layout::{Lent, VERSION};
use crate::operations::{Operation, Record};
use crate::queries::Query;

/// What a wrong station is, and what it does in the place of an operation; none where it does that one.
pub type Wrong = (&'static str, fn(&Operation) -> Option<Operation>);

pub const WRONGS: [Wrong; 14] = [
    ("strikes the entry before", |operation| match *operation {
        Operation::Strike(j, i, place) if place > 0 => Some(Operation::Strike(j, i, place - 1)),
        _ => None,
    }),
    (
        "puts an entry behind the others",
        |operation| match *operation {
            Operation::Put(j, i, _, id) => Some(Operation::Append(j, i, id)),
            _ => None,
        },
    ),
    (
        "appends to the record before",
        |operation| match *operation {
            Operation::Append(j, i, id) if i > 0 => Some(Operation::Append(j, i - 1, id)),
            _ => None,
        },
    ),
    ("takes wire edges for faces", |operation| match *operation {
        Operation::Append(3, i, id) => Some(Operation::Append(2, i, id)),
        _ => None,
    }),
    ("keeps ids of 31 bits", |operation| match *operation {
        Operation::Append(j, i, id) => Some(Operation::Append(j, i, id & 0x7fff_ffff)),
        _ => None,
    }),
    (
        "sets a record that is missing",
        |operation| match operation {
            Operation::Set(i, record) if *i > 0 => Some(Operation::Set(i - 1, record.clone())),
            _ => None,
        },
    ),
    ("exchanges front and back", |operation| match operation {
        Operation::Insert(Record::Face([front, back, surface], positive)) => Some(
            Operation::Insert(Record::Face([*back, *front, *surface], *positive)),
        ),
        _ => None,
    }),
    ("makes every fin positive", |operation| match operation {
        Operation::Insert(Record::Fin(ids, _, pcurve)) => {
            Some(Operation::Insert(Record::Fin(*ids, true, *pcurve)))
        }
        _ => None,
    }),
    ("loses the pcurve mark", |operation| match operation {
        Operation::Insert(Record::Fin(ids, positive, _)) => {
            Some(Operation::Insert(Record::Fin(*ids, *positive, false)))
        }
        _ => None,
    }),
    ("loses an edge's tolerance", |operation| match operation {
        Operation::Set(i, Record::Edge(ids, Some(_))) => {
            Some(Operation::Set(*i, Record::Edge(*ids, None)))
        }
        _ => None,
    }),
    (
        "takes a tolerance that is none",
        |operation| match operation {
            Operation::Insert(Record::Vertex(p, Some(t))) if t.is_nan() || *t < 0.0 => {
                Some(Operation::Insert(Record::Vertex(*p, Some(1.0))))
            }
            _ => None,
        },
    ),
    ("loses the sign of a zero", |operation| match operation {
        Operation::Insert(Record::Vertex(p, t)) => {
            Some(Operation::Insert(Record::Vertex(p.map(|x| x + 0.0), *t)))
        }
        _ => None,
    }),
    ("turns planes round", |operation| match operation {
        Operation::Insert(Record::Surface(Carrier::Plane(o, n))) => Some(Operation::Insert(
            Record::Surface(Carrier::Plane(*o, n.map(|x| -x))),
        )),
        _ => None,
    }),
    (
        "says solid where a region is void",
        |operation| match operation {
            Operation::Set(i, Record::Region(body, _)) => {
                Some(Operation::Set(*i, Record::Region(*body, true)))
            }
            _ => None,
        },
    ),
];

/// What a station is asked to do: to make a model of a version, or an operation.
#[derive(Clone, Copy)]
pub enum Step<'a> {
    Make(u32),
    Do(&'a Operation),
}

/// What a wrong station is, and what it does to the memory behind a step; it is given the step's number, and gives the one that it answers.
pub type Beside = (&'static str, fn(Step, u32, &mut Lent) -> u32);

fn to_version_1(lent: &mut Lent, number: u32, is_so: bool) -> u32 {
    if number == 0 && is_so {
        lent.words[VERSION] = 1;
    }
    number
}

pub const BESIDES: [Beside; 6] = [
    ("makes every model one of version 1", |step, number, lent| {
        to_version_1(lent, number, matches!(step, Step::Make(_)))
    }),
    ("makes a model of any version", |step, number, _| match step {
        Step::Make(0 | 3..) => 0,
        _ => number,
    }),
    ("writes the version before it refuses to make a model", |step, number, lent| {
        if let (Step::Make(version), 1) = (step, number) {
            lent.words[VERSION] = version;
        }
        number
    }),
    ("makes the model one of version 1 as it inserts", |step, number, lent| {
        to_version_1(lent, number, matches!(step, Step::Do(Operation::Insert(_))))
    }),
    ("makes the model one of version 1 as it sets a record", |step, number, lent| {
        to_version_1(lent, number, matches!(step, Step::Do(Operation::Set(..))))
    }),
    ("makes the model one of version 1 as it strikes an entry", |step, number, lent| {
        to_version_1(lent, number, matches!(step, Step::Do(Operation::Strike(..))))
    }),
];

/// What a wrong station is, and what it answers in the place of a right answer.
pub type Misled = (&'static str, fn(&Lent, Query, &[u64]) -> Option<Vec<u64>>);

/// Whether a fin that is there runs against its edge.
fn negative(lent: &Lent, fin: usize) -> bool {
    lent.words[lent.word_at(5, fin) + 2] != 0
}

pub const MISLED: [Misled; 12] = [
    ("does not turn the ends of a negative fin", |lent, query, given| match (query, given) {
        (Query::Ends(fin), [0, a, b]) if negative(lent, fin) => Some(vec![0, *b, *a]),
        _ => None,
    }),
    ("gives the start twice", |_, query, given| match (query, given) {
        (Query::Ends(_), [0, a, _]) => Some(vec![0, *a, *a]),
        _ => None,
    }),
    ("gives vertex 0 for an end that is none", |_, query, given| match (query, given) {
        (Query::Ends(_), [0, a, b]) => Some(vec![0, (*a).max(1), (*b).max(1)]),
        _ => None,
    }),
    ("gives ends of a fin whose edge is missing", |lent, query, given| match (query, given) {
        (Query::Ends(fin), [2]) if fin < lent.words[5] as usize => Some(vec![0, 0, 0]),
        _ => None,
    }),
    ("gives the bounds turned", |_, query, given| match (query, given) {
        (Query::Bounds(_), [0, lo, hi]) => Some(vec![0, *hi, *lo]),
        _ => None,
    }),
    ("gives bounds from 0 on", |_, query, given| match (query, given) {
        (Query::Bounds(_), [0, lo, hi]) => {
            let length = f64::from_bits(*hi) - f64::from_bits(*lo);
            Some(vec![0, 0, length.to_bits()])
        }
        _ => None,
    }),
    ("gives bounds that are one float off", |_, query, given| match (query, given) {
        (Query::Bounds(_), [0, lo, hi]) => Some(vec![0, *lo, f64::from_bits(*hi).next_up().to_bits()]),
        _ => None,
    }),
    ("gives 7 for an edge that does not run along its line", |_, query, given| match (query, given) {
        (Query::Bounds(_), [4]) => Some(vec![7]),
        _ => None,
    }),
    ("gives 2 for an edge without a curve", |_, query, given| match (query, given) {
        (Query::Bounds(_), [1]) => Some(vec![2]),
        _ => None,
    }),
    ("gives version 1 for every model", |_, query, given| match (query, given) {
        (Query::Version, [0, _]) => Some(vec![0, 1]),
        _ => None,
    }),
    ("counts versions from 0", |_, query, given| match (query, given) {
        (Query::Version, [0, version]) => Some(vec![0, version - 1]),
        _ => None,
    }),
    ("holds one record more than there are", |lent, query, given| match (query, given) {
        (Query::Contains(class, id), [0, 0]) if id == lent.words[class as usize] as usize => {
            Some(vec![0, 1])
        }
        _ => None,
    }),
];
