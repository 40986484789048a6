//! Wrong stations for two offices: each does as the station does and then alters the answer or the memory. The comparison must see every one of them.

use crate::layout::Lent;
use crate::offices::{Ask, foreign};
use crate::operations::{Operation, Record};

/// What a wrong station makes of an answer, or does to the memory behind a call. Each is given the memory before it, which has the office that asks.
#[derive(Clone, Copy)]
pub enum How {
    /// Of a question, which of its marks is short, and the right answer.
    Told(fn(&Lent, Ask, Option<usize>, &[u64]) -> Option<Vec<u64>>),
    /// Of an edit and its number: the number that is answered.
    Edit(fn(&Lent, &Operation, u32, &mut Lent) -> u32),
    /// Of a split of an edge at a fraction, and the right answer.
    Split(fn(&Lent, (usize, f64), &[u64], &mut Lent) -> Option<Vec<u64>>),
    /// The office is tested before the memory can be read.
    First,
    /// Of what an office is told before and after: with a record of a table changed that is reached from its bodies, and with a record more where an id that
    /// was met names none.
    Apart(usize),
    Count,
}

// ---- questions

/// The other office's answer to a question of this name about its body.
fn tells(lent: &Lent, ask: Ask, short: Option<usize>, name: &str) -> Option<Vec<u64>> {
    let of_other = !above(lent) && ask.body().is_some_and(|body| foreign(lent, body));
    (of_other && ask.name() == name).then(|| ask.ours(&lent.by(1 - lent.office), short, 0))
}

/// Whether an office above 1 asks.
fn above(lent: &Lent) -> bool {
    lent.office > 1
}

// ---- edits

/// The body that is there and that the edit names.
fn edited(lent: &Lent, operation: &Operation) -> Option<usize> {
    let body = match *operation {
        Operation::Set(i, Record::Body(_))
        | Operation::Append(0, i, _)
        | Operation::Put(0, i, ..)
        | Operation::Strike(0, i, _) => i,
        _ => return None,
    };
    (body < lent.words[0] as usize).then_some(body)
}

/// The edit by another office, in the place of what was done.
fn edits_as(before: &Lent, office: u32, operation: &Operation, lent: &mut Lent) -> u32 {
    let mut other = before.by(office);
    let number = operation.ours(&mut other);
    *lent = other.by(before.office);
    number
}

/// An edit of the other's body that was refused, done as that office would do it.
fn edits_other(before: &Lent, operation: &Operation, number: u32, lent: &mut Lent) -> u32 {
    match edited(before, operation) {
        Some(body) if number == 2 && !above(before) && foreign(before, body) => {
            edits_as(before, 1 - before.office, operation, lent)
        }
        _ => number,
    }
}

/// An edit by an office above 1, done as by office 0 or 1.
fn edits_untested(before: &Lent, operation: &Operation, number: u32, lent: &mut Lent) -> u32 {
    match above(before) {
        true => edits_as(before, before.office & 1, operation, lent),
        false => number,
    }
}

// ---- splits

/// Whether the edge is in the walk of each body, none where the walk fails; the other's bodies, then the asker's own.
fn walks(lent: &Lent, edge: usize) -> [Vec<Option<bool>>; 2] {
    [true, false].map(|other| {
        let bodies = (0..lent.words[0] as usize).filter(|&body| foreign(lent, body) == other);
        let has = |body: usize| {
            let lent = lent.by(lent.words[lent.word_at(0, body) + 1]);
            let walk = Ask::Walk(1, body, 1 << 14).ours(&lent, None, 0);
            (walk[0] == 0).then(|| walk[1..].contains(&(edge as u64)))
        };
        bodies.map(has).collect()
    })
}

fn any(walks: &[Option<bool>], is_so: Option<bool>) -> bool {
    walks.contains(&is_so)
}

/// The split as if every body were the asker's.
fn freely(before: &Lent, (edge, at): (usize, f64), lent: &mut Lent) -> Option<Vec<u64>> {
    let offices: Vec<usize> = (0..before.words[0] as usize)
        .map(|i| before.word_at(0, i) + 1)
        .collect();
    *lent = before.clone();
    offices
        .iter()
        .for_each(|&at| lent.words[at] = before.office);
    let given = lent.split(edge, at);
    offices
        .iter()
        .for_each(|&at| lent.words[at] = before.words[at]);
    Some(given)
}

/// The refusal of a missing edge in the place of what comes behind it.
fn missing(before: &Lent, given: &[u64], lent: &mut Lent) -> Option<Vec<u64>> {
    // What is refused with 1 may be so for its fraction.
    (given != [1]).then(|| {
        *lent = before.clone();
        vec![2]
    })
}

pub const WRONGS: [(&str, How); 55] = [
    (
        "does not test the office of a question",
        How::Told(|lent, ask, short, _| {
            above(lent).then(|| ask.ours(&lent.by(lent.office & 1), short, 0))
        }),
    ),
    (
        "tests the office of a list of a body alone",
        How::Told(|lent, ask, _, _| match ask {
            Ask::Entry(1.., ..) if above(lent) => Some(ask.ours(&lent.by(0), None, 0)),
            _ => None,
        }),
    ),
    (
        "tests the office of a body alone where it is asked what exists",
        How::Told(|lent, ask, _, _| match ask {
            Ask::Contains(1.., _) if above(lent) => Some(ask.ours(&lent.by(0), None, 0)),
            _ => None,
        }),
    ),
    (
        "tests the office behind the marks",
        How::Told(|lent, _, short, _| (above(lent) && short.is_some()).then(|| vec![8])),
    ),
    (
        "tests the office behind the body",
        How::Told(|lent, ask, _, _| {
            (above(lent) && ask.body()? >= lent.words[0] as usize).then(|| vec![2])
        }),
    ),
    ("tests the office before the tables", How::First),
    (
        "gives 9 for an office above 1",
        How::Told(|lent, _, _, _| above(lent).then(|| vec![9])),
    ),
    (
        "gives 1 for a body of the other office",
        How::Told(|lent, ask, _, given| {
            (given == [2] && foreign(lent, ask.body()?)).then(|| vec![1])
        }),
    ),
    (
        "tests the other's body before the marks",
        How::Told(|lent, ask, short, _| {
            (!above(lent) && short.is_some() && foreign(lent, ask.body()?)).then(|| vec![2])
        }),
    ),
    (
        "tests the other's body before the samples",
        How::Told(|lent, ask, short, _| match ask {
            Ask::Report(body, _, 256.., _)
                if !above(lent) && short.is_none() && foreign(lent, body) =>
            {
                Some(vec![2])
            }
            _ => None,
        }),
    ),
    (
        "tests the place before the other's body",
        How::Told(|lent, ask, _, _| match ask {
            Ask::Entry(0, body, 16..) if !above(lent) && foreign(lent, body) => Some(vec![1]),
            _ => None,
        }),
    ),
    (
        "tells the other's body",
        How::Told(|lent, ask, short, _| tells(lent, ask, short, "body")),
    ),
    (
        "says that the other's body exists",
        How::Told(|lent, ask, short, _| tells(lent, ask, short, "contains")),
    ),
    (
        "refuses to say whether the other's body exists",
        How::Told(|lent, ask, _, _| match ask {
            Ask::Contains(0, body) if !above(lent) && foreign(lent, body) => Some(vec![2]),
            _ => None,
        }),
    ),
    (
        "tells the regions of the other's body",
        How::Told(|lent, ask, short, _| tells(lent, ask, short, "list entry")),
    ),
    (
        "walks the other's body",
        How::Told(|lent, ask, short, _| tells(lent, ask, short, "walk")),
    ),
    (
        "gives the box of the other's body",
        How::Told(|lent, ask, short, _| tells(lent, ask, short, "box")),
    ),
    (
        "gives the volume of the other's body",
        How::Told(|lent, ask, short, _| tells(lent, ask, short, "volume")),
    ),
    (
        "reports on the other's body",
        How::Told(|lent, ask, short, _| tells(lent, ask, short, "report")),
    ),
    (
        "finds the other's body fit to saw",
        How::Told(|lent, ask, short, _| tells(lent, ask, short, "fit to saw")),
    ),
    (
        "hides the records of the other's regions",
        How::Told(|lent, ask, _, _| match ask {
            Ask::Entry(1, i, _) if !above(lent) && i < lent.words[1] as usize => {
                let body = lent.words[lent.word_at(1, i)] as usize;
                foreign(lent, body).then(|| vec![2])
            }
            _ => None,
        }),
    ),
    (
        "hides its own bodies from office 1",
        How::Told(|lent, ask, short, given| {
            (lent.office == 1
                && short.is_none()
                && given[0] == 0
                && ask.name() != "contains"
                && ask.body().is_some())
            .then(|| vec![2])
        }),
    ),
    (
        "puts every body under office 0",
        How::Edit(|before, operation, number, lent| {
            if let (Operation::Insert(Record::Body(_)), 0) = (operation, number) {
                let at = lent.word_at(0, before.words[0] as usize) + 1;
                lent.words[at] = 0;
            }
            number
        }),
    ),
    (
        "does not test the office of a new body",
        How::Edit(|before, operation, number, lent| match operation {
            Operation::Insert(Record::Body(_)) => edits_untested(before, operation, number, lent),
            _ => number,
        }),
    ),
    (
        "asks for room before the office of a new body",
        How::Edit(|before, operation, number, _| match operation {
            Operation::Insert(Record::Body(_)) if above(before) && operation.beyond(before) => 8,
            _ => number,
        }),
    ),
    (
        "does not test the office of a body's edit",
        How::Edit(|before, operation, number, lent| match operation {
            Operation::Set(..) => edits_untested(before, operation, number, lent),
            _ => number,
        }),
    ),
    (
        "does not test the office of an entry",
        How::Edit(|before, operation, number, lent| match operation {
            Operation::Append(..) | Operation::Put(..) | Operation::Strike(..) => {
                edits_untested(before, operation, number, lent)
            }
            _ => number,
        }),
    ),
    (
        "sets the other's body",
        How::Edit(|before, operation, number, lent| match operation {
            Operation::Set(..) => edits_other(before, operation, number, lent),
            _ => number,
        }),
    ),
    (
        "appends to the other's body",
        How::Edit(|before, operation, number, lent| match operation {
            Operation::Append(..) => edits_other(before, operation, number, lent),
            _ => number,
        }),
    ),
    (
        "puts an entry into the other's body",
        How::Edit(|before, operation, number, lent| match operation {
            Operation::Put(..) => edits_other(before, operation, number, lent),
            _ => number,
        }),
    ),
    (
        "strikes an entry of the other's body",
        How::Edit(|before, operation, number, lent| match operation {
            Operation::Strike(..) => edits_other(before, operation, number, lent),
            _ => number,
        }),
    ),
    (
        "takes over the other's body that it refuses to set",
        How::Edit(|before, operation, number, lent| {
            if let (Some(body), 2) = (edited(before, operation), number) {
                let at = lent.word_at(0, body) + 1;
                lent.words[at] = before.office & 1;
            }
            number
        }),
    ),
    (
        "gives a body that it sets to the other office",
        How::Edit(|before, operation, number, lent| {
            if let (Operation::Set(body, Record::Body(_)), 0) = (operation, number) {
                let at = lent.word_at(0, *body) + 1;
                lent.words[at] = 1 - before.office;
            }
            number
        }),
    ),
    (
        "empties the list of a body that it sets",
        How::Edit(|_, operation, number, lent| {
            if let (Operation::Set(body, Record::Body(_)), 0) = (operation, number) {
                let at = lent.word_at(0, *body) + 2;
                lent.words[at] = 0;
            }
            number
        }),
    ),
    (
        "does not test the office of a split",
        How::Split(|before, (edge, at), _, lent| {
            above(before).then(|| {
                *lent = before.by(before.office & 1);
                let given = lent.split(edge, at);
                lent.office = before.office;
                given
            })
        }),
    ),
    (
        "tests the office of a split behind the edge",
        How::Split(|before, (edge, at), _, _| {
            (above(before) && at == 0.5 && edge >= before.words[6] as usize).then(|| vec![2])
        }),
    ),
    (
        "splits the other's edge",
        How::Split(|before, cut, _, lent| {
            let other = !above(before) && any(&walks(before, cut.0)[0], Some(true));
            if other {
                freely(before, cut, lent)
            } else {
                None
            }
        }),
    ),
    (
        "goes by the first of the other's bodies alone",
        How::Split(|before, cut, _, lent| {
            let [others, _] = walks(before, cut.0);
            let first = others.first().copied().flatten() == Some(true);
            if !above(before) && !first {
                freely(before, cut, lent)
            } else {
                None
            }
        }),
    ),
    (
        "goes by no walk of the other office where one of them fails",
        How::Split(|before, cut, _, lent| {
            let fails = !above(before) && any(&walks(before, cut.0)[0], None);
            if fails {
                freely(before, cut, lent)
            } else {
                None
            }
        }),
    ),
    (
        "counts a failing walk of the other office as having the edge",
        How::Split(|before, cut, given, lent| {
            let fails = !above(before) && any(&walks(before, cut.0)[0], None);
            if fails {
                missing(before, given, lent)
            } else {
                None
            }
        }),
    ),
    (
        "lets either office split an edge of both",
        How::Split(|before, cut, _, lent| {
            let [others, own] = walks(before, cut.0);
            let both = !above(before) && any(&others, Some(true)) && any(&own, Some(true));
            if both {
                freely(before, cut, lent)
            } else {
                None
            }
        }),
    ),
    (
        "refuses to split an edge of nobody",
        How::Split(|before, cut, given, lent| {
            let had = walks(before, cut.0)
                .iter()
                .any(|walks| any(walks, Some(true)));
            if above(before) || had {
                None
            } else {
                missing(before, given, lent)
            }
        }),
    ),
    (
        "refuses the other's edge before the fraction",
        How::Split(|before, cut, given, _| {
            let other = !above(before) && given == [1] && any(&walks(before, cut.0)[0], Some(true));
            other.then(|| vec![2])
        }),
    ),
    (
        "makes every body the asker's as it splits",
        How::Split(|before, _, given, lent| {
            (given[0] == 0).then(|| {
                for i in 0..before.words[0] as usize {
                    let at = lent.word_at(0, i) + 1;
                    lent.words[at] = before.office;
                }
                given.to_vec()
            })
        }),
    ),
    ("is asked again with another body of its own", How::Apart(0)),
    ("is asked again with another region reached", How::Apart(1)),
    ("is asked again with another shell reached", How::Apart(2)),
    ("is asked again with another face reached", How::Apart(3)),
    ("is asked again with another loop reached", How::Apart(4)),
    ("is asked again with another fin reached", How::Apart(5)),
    ("is asked again with another edge reached", How::Apart(6)),
    ("is asked again with another vertex reached", How::Apart(7)),
    ("is asked again with another curve reached", How::Apart(8)),
    ("is asked again with another surface reached", How::Apart(9)),
    (
        "is asked again with a record for an id that named none",
        How::Count,
    ),
];
