//! Wrong stations for the courses: each goes by another rule than the request's, or does as the station does and then alters what it leaves. The comparison must see
//! every one of them.

use std::collections::HashSet;

use crate::courses::{
    Answer, Ask, Edit, Edited, Met, Rule, SLOTS, STRIDE, Test, bodies, is_missing,
};

#[derive(Clone, Copy)]
pub enum How {
    /// By another rule.
    Rule(fn(&mut Rule)),
    /// Of what is asked, and what is answered.
    Told(fn(&Ask, &mut Answer)),
    /// Of an edit, the words before it, and what it leaves.
    Edits(fn(Edit, &[u32], &mut Edited)),
    /// The office is tested before the memory can be read.
    First,
    /// A course table that cannot be read gives another number.
    Unread(u32),
    /// The tables are written to, or the course table.
    Tables,
    Courses,
}

/// Makes one test before another.
fn before(rule: &mut Rule, first: Test, second: Test) {
    let place = |test| rule.tests.iter().position(|&t| t == test);
    let places = [second, first].map(|test| place(test).expect("each test is made"));
    rule.tests[places[0]..=places[1]].rotate_right(1);
}

/// Each course's stones the first time that it is met alone.
fn once(met: &[Met]) -> Vec<usize> {
    let mut seen = HashSet::new();
    let mut left_out: Option<usize> = None;
    let mut kept = Vec::new();
    for one in met {
        if let (Met::Course(level, ..) | Met::Body(level, _), Some(out)) = (one, left_out)
            && (*level > out || (*level == out && matches!(one, Met::Body(..))))
        {
            continue;
        }
        left_out = None;
        match *one {
            Met::Course(level, id, _) if !seen.insert(id) => left_out = Some(level),
            Met::Body(_, Some(body)) => kept.push(body),
            _ => {}
        }
    }
    kept
}

fn first_met(met: &[Met]) -> Option<bool> {
    met.iter().find_map(|met| match met {
        Met::NoCourse(_) | Met::Body(_, None) => Some(true),
        Met::Deep(_) => Some(false),
        _ => None,
    })
}

fn accepted(answer: &mut Answer, alter: fn(&mut [u64; 3])) {
    if answer.number == 0 {
        alter(&mut answer.slots);
    }
}

pub const WRONGS: [(&str, How); 44] = [
    ("has three levels", How::Rule(|rule| rule.levels = 3)),
    ("has five levels", How::Rule(|rule| rule.levels = 5)),
    ("has two levels", How::Rule(|rule| rule.levels = 2)),
    (
        "has levels enough for any",
        How::Rule(|rule| rule.levels = 7),
    ),
    (
        "gives 1 before 2",
        How::Rule(|rule| before(rule, Test::Deep, Test::Missing)),
    ),
    (
        "gives 1 or 2, which is met first",
        How::Rule(|rule| {
            rule.missing = |met| first_met(met) == Some(true);
            rule.deep = |met| first_met(met) == Some(false);
        }),
    ),
    (
        "looks for a course beyond the fourth level",
        How::Rule(|rule| rule.missing = |met| is_missing(met) || met.contains(&Met::Deep(false))),
    ),
    (
        "gives 1 beyond the fourth level only for a course that is there",
        How::Rule(|rule| rule.deep = |met| met.contains(&Met::Deep(true))),
    ),
    (
        "gives 1 beyond the fourth level only for a course that is not there",
        How::Rule(|rule| rule.deep = |met| met.contains(&Met::Deep(false))),
    ),
    (
        "never gives 1 for a level",
        How::Rule(|rule| rule.deep = |_| false),
    ),
    (
        "does not look for the bodies of the fourth level",
        How::Rule(|rule| {
            rule.missing = |met| {
                met.iter()
                    .any(|met| matches!(met, Met::NoCourse(_) | Met::Body(..4, None)))
            }
        }),
    ),
    (
        "does not look for the courses of the fourth level",
        How::Rule(|rule| {
            rule.missing = |met| {
                met.iter()
                    .any(|met| matches!(met, Met::NoCourse(..4) | Met::Body(_, None)))
            }
        }),
    ),
    (
        "does not look for the asked course",
        How::Rule(|rule| {
            rule.missing = |met| is_missing(met) && !met.starts_with(&[Met::NoCourse(1)])
        }),
    ),
    (
        "does not look for bodies",
        How::Rule(|rule| {
            rule.missing = |met| met.iter().any(|met| matches!(met, Met::NoCourse(_)))
        }),
    ),
    (
        "does not look for listed courses",
        How::Rule(|rule| {
            rule.missing = |met| {
                met.iter()
                    .any(|met| matches!(met, Met::NoCourse(1) | Met::Body(_, None)))
            }
        }),
    ),
    (
        "refuses an empty course with 2",
        How::Rule(|rule| {
            rule.missing =
                |met| is_missing(met) || met.iter().any(|met| matches!(met, Met::Course(_, _, 0)))
        }),
    ),
    (
        "refuses an empty course with 1",
        How::Rule(|rule| {
            rule.deep = |met| {
                met.iter()
                    .any(|met| matches!(met, Met::Deep(_) | Met::Course(_, _, 0)))
            }
        }),
    ),
    (
        "refuses a course that lists itself with 2",
        How::Rule(|rule| {
            rule.missing = |met| {
                let repeats = met.windows(2).any(
                    |pair| matches!(pair, [Met::Course(_, a, _), Met::Course(_, b, _)] if a == b),
                );
                is_missing(met) || repeats
            }
        }),
    ),
    (
        "takes the other office's bodies",
        How::Rule(|rule| rule.any_office = true),
    ),
    (
        "goes by the last refused stone",
        How::Rule(|rule| rule.decides = |l| l.iter().copied().rfind(|&n| n != 0).unwrap_or(0)),
    ),
    (
        "goes by the largest refusal",
        How::Rule(|rule| rule.decides = |l| l.iter().copied().max().unwrap_or(0)),
    ),
    (
        "goes by the smallest refusal",
        How::Rule(|rule| {
            rule.decides = |l| l.iter().copied().filter(|&n| n != 0).min().unwrap_or(0)
        }),
    ),
    (
        "looks at the first stone alone",
        How::Rule(|rule| rule.decides = |l| l.first().copied().unwrap_or(0)),
    ),
    (
        "weighs before it looks for what is missing",
        How::Rule(|rule| before(rule, Test::Stones, Test::Missing)),
    ),
    (
        "weighs before it counts the levels",
        How::Rule(|rule| before(rule, Test::Stones, Test::Deep)),
    ),
    (
        "tests the marks before the office",
        How::Rule(|rule| before(rule, Test::Marks, Test::Office)),
    ),
    (
        "looks for what is missing before the marks",
        How::Rule(|rule| before(rule, Test::Missing, Test::Marks)),
    ),
    (
        "counts a course once",
        How::Rule(|rule| rule.counted = once),
    ),
    (
        "counts a body once",
        How::Rule(|rule| {
            rule.counted = |met| {
                let mut seen = HashSet::new();
                bodies(met)
                    .into_iter()
                    .filter(|&b| seen.insert(b))
                    .collect()
            }
        }),
    ),
    (
        "counts the bodies of the first level alone",
        How::Rule(|rule| {
            rule.counted = |met| {
                met.iter()
                    .filter_map(|met| {
                        if let Met::Body(1, body) = met {
                            *body
                        } else {
                            None
                        }
                    })
                    .collect()
            }
        }),
    ),
    (
        "counts courses too",
        How::Rule(|rule| rule.stones = |met, _| met.len() as u64),
    ),
    (
        "counts an empty course as a stone",
        How::Rule(|rule| {
            rule.stones = |met, n| {
                n as u64
                    + met
                        .iter()
                        .filter(|met| matches!(met, Met::Course(_, _, 0)))
                        .count() as u64
            }
        }),
    ),
    (
        "adds the sizes of the numbers",
        How::Rule(|rule| rule.total = |l| l.iter().map(|n| n.abs()).sum()),
    ),
    (
        "adds in one word",
        How::Rule(|rule| {
            rule.total = |l| i128::from(l.iter().fold(0i64, |sum, &n| sum.wrapping_add(n as i64)))
        }),
    ),
    (
        "tells no high word",
        How::Told(|_, answer| accepted(answer, |slots| slots[2] = 0)),
    ),
    (
        "tells the high word first",
        How::Told(|_, answer| accepted(answer, |slots| slots.swap(1, 2))),
    ),
    (
        "writes a slot of a refusal",
        How::Told(|_, answer| {
            if answer.number != 0 {
                answer.slots[0] = 0;
            }
        }),
    ),
    (
        "leaves a mark",
        How::Told(|ask, answer| answer.cleared &= ask.short || answer.number != 0),
    ),
    ("tests the office before the memory", How::First),
    (
        "gives 2 for a course table that cannot be read",
        How::Unread(2),
    ),
    ("writes to the tables", How::Tables),
    ("writes to the course table", How::Courses),
    (
        "lets a struck entry's word go",
        How::Edits(|edit, words, left| {
            if let (Edit::Strike { course, .. }, 0) = (edit, left.number) {
                let at = 1 + STRIDE * course;
                left.words[at + words[at] as usize] = 0;
            }
        }),
    ),
    (
        "clears the words of a course that is made",
        How::Edits(|edit, words, left| {
            if let (Edit::Insert, 0) = (edit, left.number) {
                let at = 1 + STRIDE * words[0] as usize;
                left.words[at + 1..at + STRIDE].fill(0);
            }
        }),
    ),
];

/// Wrong editors besides.
pub const EDITORS: [(&str, fn(Edit, &[u32], &mut Edited)); 12] = [
    ("refuses the sixteenth entry", |edit, words, left| {
        if let (Edit::Append { course, .. }, 0) = (edit, left.number)
            && words[1 + STRIDE * course] == 15
        {
            *left = Edited {
                number: 8,
                slots: SLOTS,
                words: words.to_vec(),
            };
        }
    }),
    ("gives 8 for an entry that is none", |edit, _, left| {
        if let (Edit::Append { .. } | Edit::Put { .. }, 1) = (edit, left.number) {
            left.number = 8;
        }
    }),
    ("gives 2 before 1", |edit, words, left| {
        if let (Edit::Append { course, .. } | Edit::Put { course, .. }, 1) = (edit, left.number)
            && words[0] as usize <= course
        {
            left.number = 2;
        }
    }),
    ("gives 2 for a place that is not there", |edit, _, left| {
        if let (Edit::Strike { .. } | Edit::Entry { .. }, 1) = (edit, left.number) {
            left.number = 2;
        }
    }),
    ("counts a course too many", |edit, _, left| {
        if let (Edit::Count, 0) = (edit, left.number) {
            left.slots[0] += 1;
        }
    }),
    ("tells the id of the last course", |edit, _, left| {
        if let (Edit::Insert, 0) = (edit, left.number) {
            left.slots[0] = left.slots[0].wrapping_sub(1);
        }
    }),
    ("tells the word of an entry", |edit, _, left| {
        if let (Edit::Entry { .. }, 0) = (edit, left.number) {
            left.slots[1] += left.slots[0] << 16;
        }
    }),
    ("writes a slot of a refusal", |_, _, left| {
        if left.number != 0 {
            left.slots[0] = 0;
        }
    }),
    ("writes a word of a refusal", |_, _, left| {
        if left.number != 0
            && let Some(word) = left.words.last_mut()
        {
            *word = word.wrapping_add(1);
        }
    }),
    ("clears the whole table that it makes", |edit, _, left| {
        if let (Edit::Make, 0) = (edit, left.number) {
            left.words.fill(0);
        }
    }),
    ("appends in front", |edit, words, left| {
        if let (Edit::Append { course, .. }, 0) = (edit, left.number) {
            let at = 1 + STRIDE * course;
            let n = words[at] as usize;
            left.words[at + 1..at + 2 + n].rotate_right(1);
        }
    }),
    ("tells a length of 16", |edit, _, left| {
        if let (Edit::Length { .. }, 0) = (edit, left.number) {
            left.slots[0] = 16;
        }
    }),
];
