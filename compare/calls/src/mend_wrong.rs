//! Wrong stations for the mending: each goes by another rule than the request's, answers another question, or does as the station does and then alters the answer. The
//! comparison must see every one of them.

use models::plain::Plain;

use crate::layout::{LISTS, Lent};
use crate::mends::{
    Change, FINS, LENGTH, MARKS, Mend, Mended, PARENT, Refused, Rule, Test, Walk, reaches, write,
};
use crate::operations::list;

#[derive(Clone, Copy)]
pub enum How {
    /// By another rule.
    Rule(fn(&mut Rule)),
    /// Of what is asked, what is answered.
    Told(fn(&Asked, &mut Mended)),
    /// Another question.
    Asked(fn(&Plain, &mut Mend)),
    /// Of other memory.
    Of(fn(&mut Lent)),
    /// The office is tested before the memory can be read.
    Office,
    /// The marks are.
    Marks,
}

/// What is asked, of which model in which memory, and the changes that the request has for it, or the refusal.
pub struct Asked<'a> {
    pub mend: &'a Mend,
    pub lent: &'a Lent,
    pub plain: &'a Plain,
    pub found: &'a Result<Vec<Change>, Refused>,
}

impl Asked<'_> {
    /// The changes, where it is not refused.
    fn changes(&self) -> &[Change] {
        self.found.as_deref().unwrap_or_default()
    }

    /// The same, where the tables are written.
    fn written(&self) -> &[Change] {
        if self.mend.dry { &[] } else { self.changes() }
    }

    fn refused(&self, words: &str) -> bool {
        matches!(self.found, Err((_, told)) if told.contains(words))
    }

    /// The changes that the list had no room for.
    fn unlisted(&self) -> Vec<Change> {
        if !self.refused("8 the list") {
            return Vec::new();
        }
        let rule = Rule {
            entries: |_| usize::MAX,
            ..Rule::REQUEST
        };
        let found = self.mend.changes(self.plain, &self.lent.room, &rule);
        found.unwrap_or_default()
    }
}

/// Makes one test before another.
fn before(rule: &mut Rule, first: Test, second: Test) {
    let place = |test| rule.tests.iter().position(|&t| t == test);
    let places = [second, first].map(|test| place(test).expect("each test is made"));
    rule.tests[places[0]..=places[1]].rotate_right(1);
}

/// Puts other changes into the list.
fn listed(given: &mut Mended, changes: &[Change]) {
    for (place, word) in given.list.iter_mut().zip(changes.iter().flatten()) {
        *place = *word;
    }
}

/// Each change told otherwise.
fn told(asked: &Asked, given: &mut Mended, alter: fn(&Asked, Change) -> Change) {
    let changes: Vec<Change> = asked.changes().iter().map(|&c| alter(asked, c)).collect();
    listed(given, &changes);
}

/// The changes in another order.
fn ordered(asked: &Asked, given: &mut Mended, order: fn(&mut Vec<Change>)) {
    let mut changes = asked.changes().to_vec();
    order(&mut changes);
    listed(given, &changes);
}

/// An added fin told otherwise.
fn added(asked: &Asked, given: &mut Mended, alter: fn(&Asked, Change) -> Change) {
    let changes: Vec<Change> = asked.changes().to_vec();
    let alter = |change: Change| match change[2] {
        FINS => alter(asked, change),
        _ => change,
    };
    listed(given, &changes.into_iter().map(alter).collect::<Vec<_>>());
}

/// The list of an edge that was given fins, behind its length, for each of those fins.
fn edges(asked: &Asked, given: &mut Mended, alter: fn(&mut [u32], Change)) {
    for &change in asked.written() {
        if change[2] == FINS {
            let at = given.lent.word_at(6, change[1] as usize) + LENGTH;
            alter(&mut given.lent.words[at..at + 9], change);
        }
    }
}

/// The changes of each other body, as its own office would have them.
fn of_others(asked: &Asked) -> Vec<Change> {
    let bodies = asked.plain.bodies.iter().enumerate();
    let others = bodies.filter(|&(body, _)| body != asked.mend.body);
    let changes = others.flat_map(|(body, r)| {
        let mend = Mend {
            office: r.office,
            body,
            list: vec![0; 6 * 9_000],
            ..asked.mend.clone()
        };
        let found = mend.changes(asked.plain, &asked.lent.room, &Rule::REQUEST);
        found.unwrap_or_default()
    });
    changes.collect()
}

/// The faces that are listed by a shell that they do not name, with that shell.
fn fronts(asked: &Asked) -> Vec<[usize; 2]> {
    let Mend { office, body, .. } = *asked.mend;
    let walk = Walk::of(asked.plain, office, body, &Rule::REQUEST);
    let faces = walk.met.iter().filter(|met| met.table == 3);
    let faces = faces.filter(|met| {
        let face = &asked.plain.faces[met.id];
        ![face.front, face.back].contains(&Some(met.parent))
    });
    faces.map(|met| [met.id, met.parent]).collect()
}

/// Whether list j of a record counts for the body, of the bodies that reach that record: of the body itself, of another office's, of any.
fn reached(plain: &Plain, j: usize, i: usize, by: impl Fn(usize) -> bool) -> bool {
    let table = LISTS[j].0;
    (0..plain.bodies.len()).any(|body| by(body) && reaches(plain, body, table, i))
}

pub const RULES: [(&str, How); 42] = [
    (
        "passes over two parents",
        How::Rule(|rule| rule.single = &[]),
    ),
    (
        "passes over two bodies of a region",
        How::Rule(|rule| rule.single = &[2, 4, 5]),
    ),
    (
        "passes over two regions of a shell",
        How::Rule(|rule| rule.single = &[1, 4, 5]),
    ),
    (
        "passes over two faces of a loop",
        How::Rule(|rule| rule.single = &[1, 2, 5]),
    ),
    (
        "passes over two loops of a fin",
        How::Rule(|rule| rule.single = &[1, 2, 4]),
    ),
    (
        "refuses a face that two shells list",
        How::Rule(|rule| rule.single = &[1, 2, 3, 4, 5]),
    ),
    (
        "passes over a second parent in another body",
        How::Rule(|rule| {
            rule.counts = |plain, body, j, i, _| {
                let own = reached(plain, j, i, |other| other == body);
                own || !reached(plain, j, i, |other| other != body)
            }
        }),
    ),
    (
        "passes over a second parent in a body of the other office",
        How::Rule(|rule| {
            rule.counts = |plain, body, j, i, _| {
                let office = |body: usize| plain.bodies.get(body).map(|r| r.office);
                let own = reached(plain, j, i, |other| office(other) == office(body));
                own || !reached(plain, j, i, |other| office(other) != office(body))
            }
        }),
    ),
    (
        "passes over a second parent that no body reaches",
        How::Rule(|rule| rule.counts = |plain, _, j, i, _| reached(plain, j, i, |_| true)),
    ),
    (
        "asks for second parents among the body's records alone",
        How::Rule(|rule| {
            rule.counts = |plain, body, j, i, _| reached(plain, j, i, |other| other == body)
        }),
    ),
    (
        "passes over a record that stands twice in one list",
        How::Rule(|rule| {
            rule.counts = |plain, _, j, i, place| {
                let entries = list(plain, j, i);
                !entries[..place].contains(&entries[place])
            }
        }),
    ),
    (
        "passes over a record that stands twice side by side",
        How::Rule(|rule| {
            rule.counts = |plain, _, j, i, place| {
                let entries = list(plain, j, i);
                place == 0 || entries[place - 1] != entries[place]
            }
        }),
    ),
    (
        "asks the parents of the lists' first entries alone",
        How::Rule(|rule| rule.counts = |_, _, _, _, place| place == 0),
    ),
    (
        "refuses two parents of a record that the body does not reach",
        How::Rule(|rule| rule.all = true),
    ),
    (
        "mends nothing of a missing body",
        How::Rule(|rule| rule.missing[0] = false),
    ),
    (
        "passes over a missing region",
        How::Rule(|rule| rule.missing[1] = false),
    ),
    (
        "passes over a missing shell",
        How::Rule(|rule| rule.missing[2] = false),
    ),
    (
        "passes over a missing face",
        How::Rule(|rule| rule.missing[3] = false),
    ),
    (
        "passes over a missing loop",
        How::Rule(|rule| rule.missing[4] = false),
    ),
    (
        "passes over a missing fin",
        How::Rule(|rule| rule.missing[5] = false),
    ),
    (
        "passes over a fin's missing edge",
        How::Rule(|rule| rule.missing[6] = false),
    ),
    (
        "refuses a missing wire edge, or a missing fin of an edge",
        How::Rule(|rule| rule.besides = true),
    ),
    (
        "mends no region",
        How::Rule(|rule| rule.mended = &[2, 4, 5]),
    ),
    ("mends no shell", How::Rule(|rule| rule.mended = &[1, 4, 5])),
    ("mends no loop", How::Rule(|rule| rule.mended = &[1, 2, 5])),
    ("mends no fin", How::Rule(|rule| rule.mended = &[1, 2, 4])),
    (
        "gives no edge its fins",
        How::Rule(|rule| rule.adds = false),
    ),
    (
        "mends a record again that it meets again",
        How::Rule(|rule| rule.again = true),
    ),
    (
        "refuses an edge's eighth fin",
        How::Rule(|rule| rule.most = 7),
    ),
    ("takes short marks", How::Rule(|rule| rule.marks = |_| 0)),
    (
        "takes marks for the records that there is room for",
        How::Rule(|rule| rule.marks = |room| [1, 2, 4, 5, 6].iter().map(|&k| room[k]).sum()),
    ),
    (
        "asks for one mark more",
        How::Rule(|rule| rule.marks = |_| MARKS + 1),
    ),
    (
        "takes words that make no whole entry for one",
        How::Rule(|rule| rule.entries = |words| words.div_ceil(6)),
    ),
    (
        "asks for one entry more",
        How::Rule(|rule| rule.entries = |words| (words / 6).saturating_sub(1)),
    ),
    (
        "tests the parents before what is missing",
        How::Rule(|rule| before(rule, Test::Parents, Test::Missing)),
    ),
    (
        "tests the room before the parents",
        How::Rule(|rule| before(rule, Test::Room, Test::Parents)),
    ),
    (
        "tests the room before what is missing",
        How::Rule(|rule| before(rule, Test::Room, Test::Missing)),
    ),
    (
        "tests the marks before the office",
        How::Rule(|rule| before(rule, Test::Marks, Test::Office)),
    ),
    (
        "tests what is missing before the office",
        How::Rule(|rule| before(rule, Test::Missing, Test::Office)),
    ),
    (
        "tests what is missing before the marks",
        How::Rule(|rule| before(rule, Test::Missing, Test::Marks)),
    ),
    (
        "tests the parents before the marks",
        How::Rule(|rule| before(rule, Test::Parents, Test::Marks)),
    ),
    (
        "tests the office last",
        How::Rule(|rule| rule.tests.rotate_left(1)),
    ),
];

pub const QUESTIONS: [(&str, How); 6] = [
    (
        "mends the other office's body",
        How::Asked(|plain, mend| {
            if let Some(body) = plain.bodies.get(mend.body)
                && mend.office < 2
            {
                mend.office = body.office;
            }
        }),
    ),
    (
        "takes an office above 1 for office 1",
        How::Asked(|_, mend| mend.office = mend.office.min(1)),
    ),
    (
        "takes a body's id by its low word",
        How::Asked(|_, mend| mend.body &= u32::MAX as usize),
    ),
    (
        "mends another body",
        How::Asked(|plain, mend| {
            if mend.body + 1 < plain.bodies.len() {
                mend.body += 1;
            }
        }),
    ),
    (
        "tells the changes where it is asked to mend",
        How::Asked(|_, mend| mend.dry = true),
    ),
    (
        "mends where it is asked for the changes",
        How::Asked(|_, mend| mend.dry = false),
    ),
];

pub const ANSWERS: [(&str, How); 39] = [
    (
        "writes the parents alone",
        How::Told(|asked, given| {
            edges(asked, given, |list, change| {
                list[0] = list[0].min(change[3])
            });
        }),
    ),
    (
        "writes the edges alone",
        How::Told(|asked, given| {
            for &[class, id, field, _, old, _] in asked.written() {
                if field == PARENT {
                    let at = given.lent.word_at(class as usize, id as usize);
                    given.lent.words[at] = old;
                }
            }
        }),
    ),
    (
        "puts a fin in front of the edge's others",
        How::Told(|asked, given| {
            edges(asked, given, |list, change| {
                list[1..][..=change[3] as usize].rotate_right(1);
            });
        }),
    ),
    (
        "clears the places behind an edge's list",
        How::Told(|asked, given| {
            edges(asked, given, |list, _| {
                let length = list[0] as usize;
                list[1 + length..].fill(0);
            });
        }),
    ),
    (
        "writes a fin behind the list's end",
        How::Told(|asked, given| {
            edges(asked, given, |list, change| {
                if change[3] < 7 {
                    list[2 + change[3] as usize] = change[5];
                }
            });
        }),
    ),
    (
        "mends a face's front",
        How::Told(|asked, given| {
            if given.number == 0 && !asked.mend.dry {
                for [face, shell] in fronts(asked) {
                    let at = given.lent.word_at(3, face);
                    given.lent.words[at..at + 2].copy_from_slice(&[1, shell as u32]);
                }
            }
        }),
    ),
    (
        "mends every body",
        How::Told(|asked, given| {
            if given.number == 0 && !asked.mend.dry {
                write_others(given, &of_others(asked));
            }
        }),
    ),
    (
        "rounds a float",
        How::Told(|asked, given| {
            if !asked.written().is_empty() {
                given.lent.reals[0] = given.lent.reals[0].next_up();
            }
        }),
    ),
    (
        "writes another bit of what is no number",
        How::Told(|asked, given| {
            if !asked.written().is_empty() {
                let mut reals = given.lent.reals.iter_mut();
                if let Some(real) = reals.find(|x| x.is_nan()) {
                    *real = f64::from_bits(real.to_bits() ^ 1 << 63);
                }
            }
        }),
    ),
    (
        "mends what the list has no room for",
        How::Told(|asked, given| {
            if !asked.mend.dry {
                write(&mut given.lent, &asked.unlisted());
            }
        }),
    ),
    (
        "writes a pointer before it refuses two parents",
        How::Told(|asked, given| {
            let refused = asked.refused("two parents");
            first_region(asked, given, refused);
        }),
    ),
    (
        "writes a pointer before it refuses what is missing",
        How::Told(|asked, given| {
            let refused = matches!(asked.found, Err((2, _)));
            first_region(asked, given, refused);
        }),
    ),
    (
        "writes a pointer before it refuses an edge",
        How::Told(|asked, given| {
            let refused = asked.refused("8 an edge");
            first_region(asked, given, refused);
        }),
    ),
    (
        "takes an edge's ninth fin",
        How::Told(|asked, given| {
            if asked.refused("8 an edge") {
                given.number = 0;
            }
        }),
    ),
    (
        "tells what the list has room for and refuses the rest",
        How::Told(|asked, given| listed(given, &asked.unlisted())),
    ),
    (
        "tells how many there are where the list is short",
        How::Told(|asked, given| {
            if asked.refused("8 the list") {
                given.count = asked.unlisted().len();
            }
        }),
    ),
    (
        "counts 0 where it is refused",
        How::Told(|asked, given| {
            if asked.found.is_err() {
                given.count = 0;
            }
        }),
    ),
    (
        "clears the list where it is refused",
        How::Told(|asked, given| {
            if asked.found.is_err() {
                given.list.fill(0);
            }
        }),
    ),
    (
        "counts one change more",
        How::Told(|asked, given| given.count += usize::from(asked.found.is_ok())),
    ),
    (
        "counts one change fewer",
        How::Told(|asked, given| given.count -= usize::from(!asked.changes().is_empty())),
    ),
    (
        "counts the list's words",
        How::Told(|asked, given| {
            if asked.found.is_ok() {
                given.count = 6 * asked.changes().len();
            }
        }),
    ),
    (
        "leaves the count where there is no change",
        How::Told(|asked, given| {
            if asked.found.is_ok() && asked.changes().is_empty() {
                given.count = asked.mend.count;
            }
        }),
    ),
    (
        "asks for a list where there is no change",
        How::Told(|asked, given| {
            if matches!(asked.found, Ok(changes) if changes.is_empty()) && given.list.len() < 6 {
                (given.number, given.count) = (8, asked.mend.count);
            }
        }),
    ),
    (
        "clears the list behind the entries",
        How::Told(|asked, given| {
            if asked.found.is_ok() {
                let written = 6 * asked.changes().len();
                given.list[written..].fill(0);
            }
        }),
    ),
    (
        "tells a pointer that is unchanged",
        How::Told(|asked, given| {
            let at = 6 * asked.changes().len();
            let body = asked.mend.body;
            if let Ok(_) = asked.found
                && let Some(entry) = given.list.get_mut(at..at + 6)
                && let [region, ..] = asked.plain.bodies[body].regions[..]
            {
                entry.copy_from_slice(&[1, region as u32, PARENT, 0, body as u32, body as u32]);
                given.count += 1;
            }
        }),
    ),
    (
        "exchanges old and new",
        How::Told(|asked, given| {
            told(asked, given, |_, [class, id, field, place, old, new]| {
                [class, id, field, place, new, old]
            });
        }),
    ),
    (
        "tells the new value for the old one",
        How::Told(|asked, given| {
            told(asked, given, |_, [class, id, field, place, _, new]| {
                [class, id, field, place, new, new]
            });
        }),
    ),
    (
        "tells the fields from 1 on",
        How::Told(|asked, given| {
            told(asked, given, |_, [class, id, field, place, old, new]| {
                [class, id, field + 1, place, old, new]
            });
        }),
    ),
    (
        "tells the id before the class",
        How::Told(|asked, given| {
            told(asked, given, |_, [class, id, field, place, old, new]| {
                [id, class, field, place, old, new]
            });
        }),
    ),
    (
        "tells an added fin of the fin's record",
        How::Told(|asked, given| {
            added(asked, given, |_, [_, edge, field, place, old, fin]| {
                [5, fin, field, place, old, edge]
            });
        }),
    ),
    (
        "tells an added fin's place as 0",
        How::Told(|asked, given| {
            added(asked, given, |_, [class, edge, field, _, old, fin]| {
                [class, edge, field, 0, old, fin]
            });
        }),
    ),
    (
        "counts an added fin's place without those before it",
        How::Told(|asked, given| {
            added(asked, given, |asked, [class, edge, field, _, old, fin]| {
                let place = asked.plain.edges[edge as usize].fins.len() as u32;
                [class, edge, field, place, old, fin]
            });
        }),
    ),
    (
        "tells what lay in an added fin's place as old",
        How::Told(|asked, given| {
            added(
                asked,
                given,
                |asked, [class, edge, field, place, _, fin]| {
                    let at = asked.lent.word_at(6, edge as usize) + LENGTH + 1 + place as usize;
                    [class, edge, field, place, asked.lent.words[at], fin]
                },
            );
        }),
    ),
    (
        "tells an edge's list before the fin's parent",
        How::Told(|asked, given| {
            ordered(asked, given, |changes| {
                for at in 1..changes.len() {
                    let [[class, fin, ..], [_, _, field, _, _, new]] =
                        [changes[at - 1], changes[at]];
                    if class == 5 && field == FINS && new == fin {
                        changes.swap(at - 1, at);
                    }
                }
            });
        }),
    ),
    (
        "tells the changes table by table",
        How::Told(|asked, given| {
            ordered(asked, given, |changes| {
                changes.sort_by_key(|change| change[0])
            });
        }),
    ),
    (
        "tells the changes by their ids",
        How::Told(|asked, given| {
            ordered(asked, given, |changes| {
                changes.sort_by_key(|change| (change[0], change[1]));
            });
        }),
    ),
    (
        "leaves the marks where it is refused",
        How::Told(|asked, given| {
            if asked.found.is_err() {
                given.marks.clone_from(&asked.mend.marks);
            }
        }),
    ),
    (
        "leaves a mark of the last record that it met",
        How::Told(|asked, given| {
            if let Some(mark) = given.marks.get_mut(MARKS - 1)
                && asked.found.is_ok()
            {
                *mark = 1;
            }
        }),
    ),
    (
        "leaves a mark behind those that it needs",
        How::Told(|asked, given| {
            if let Some(behind) = asked.mend.marks.get(MARKS..) {
                given.marks[MARKS..].copy_from_slice(behind);
            }
        }),
    ),
];

pub const MEMORY: [(&str, How); 5] = [
    (
        "looks for second parents in slots that are not used",
        How::Of(|lent| (0..6).for_each(|k| lent.words[k] = lent.room[k] as u32)),
    ),
    (
        "finds a fin's edge in a slot that is not used",
        How::Of(|lent| lent.words[6] = lent.room[6] as u32),
    ),
    (
        "looks for a fin one place behind the end of its edge's list",
        How::Of(|lent| {
            for edge in 0..lent.words[6] as usize {
                let at = lent.word_at(6, edge) + LENGTH;
                lent.words[at] = (lent.words[at] + 1).min(8);
            }
        }),
    ),
    ("tests the office before the memory", How::Office),
    ("tests the marks before the memory", How::Marks),
];

/// Parents of other bodies' records, which may be written in any order.
fn write_others(given: &mut Mended, changes: &[Change]) {
    let parents = changes.iter().filter(|change| change[2] == PARENT);
    write(&mut given.lent, &parents.copied().collect::<Vec<_>>());
}

/// Makes the body's first region name it, where that is there.
fn first_region(asked: &Asked, given: &mut Mended, refused: bool) {
    let body = asked.mend.body;
    let region = asked.plain.bodies.get(body).and_then(|r| r.regions.first());
    if let Some(&region) = region
        && refused
        && !asked.mend.dry
        && region < asked.plain.regions.len()
    {
        let at = given.lent.word_at(1, region);
        given.lent.words[at] = body as u32;
    }
}

/// All of them.
pub fn wrongs() -> impl Iterator<Item = (&'static str, How)> {
    let answers = ANSWERS.into_iter().chain(MEMORY);
    RULES.into_iter().chain(QUESTIONS).chain(answers)
}
