//! Courses within courses: W-213 once more, from the request's words alone, over the stones that `sheets` reads from the Rust's tables. A course is walked with a list of
//! what is still to be met, not by calls within calls; the words of a course table are read and written by this file's own rules.

use crate::layout::Lent;
use crate::offices::Station;
use crate::sheets::{self, Stone, Take};

type Room<'a> = &'a [usize; 10];

unsafe extern "C" {
    fn brunskerl_make_courses(courses: *mut u32, n: usize) -> u32;
    fn brunskerl_insert_course(courses: *mut u32, n: usize, value: *mut [u32; 1]) -> u32;
    fn brunskerl_append_course_entry(
        courses: *mut u32,
        n: usize,
        course: usize,
        tag: u32,
        id: u32,
    ) -> u32;
    fn brunskerl_put_course_entry(
        courses: *mut u32,
        n: usize,
        course: usize,
        place: usize,
        tag: u32,
        id: u32,
    ) -> u32;
    fn brunskerl_strike_course_entry(
        courses: *mut u32,
        n: usize,
        course: usize,
        place: usize,
    ) -> u32;
    fn brunskerl_course_count(courses: *const u32, n: usize, value: *mut [u32; 1]) -> u32;
    fn brunskerl_course_length(
        courses: *const u32,
        n: usize,
        course: usize,
        value: *mut [u32; 1],
    ) -> u32;
    fn brunskerl_course_entry(
        courses: *const u32,
        n: usize,
        course: usize,
        place: usize,
        value: *mut [u32; 2],
    ) -> u32;
    fn brunskerl_course_total(
        room: Room,
        words: *const u32,
        n: usize,
        reals: *const f64,
        m: usize,
        office: u32,
        courses: *const u32,
        k: usize,
        course: usize,
        faces: *mut u8,
        f: usize,
        value: *mut [u64; 3],
    ) -> u32;
}

// ---- the table

/// "each a body or another course"
#[derive(Clone, Copy, Debug, PartialEq)]
pub enum Entry {
    Body(usize),
    Course(usize),
}

/// How many words a course takes: its count and 16 entries.
pub const STRIDE: usize = 17;
/// From here on a word is a course's id, that much above it.
pub const COURSE: u32 = 65_536;

pub fn entry(word: u32) -> Entry {
    match word.checked_sub(COURSE) {
        None => Entry::Body(word as usize),
        Some(id) => Entry::Course(id as usize),
    }
}

/// The courses of a table's words; none where they cannot be read: "9 for an unreadable course table".
pub fn read(words: &[u32]) -> Option<Vec<Vec<Entry>>> {
    let (&used, rows) = words.split_first()?;
    if used > 256 || rows.len() / STRIDE < used as usize {
        return None;
    }
    let rows = rows.chunks(STRIDE).take(used as usize);
    rows.map(|row| {
        let entries = row[1..].get(..row[0] as usize)?;
        let known = entries.iter().all(|&e| e < 2 * COURSE);
        known.then(|| entries.iter().map(|&e| entry(e)).collect())
    })
    .collect()
}

/// A call that edits or reads a table, and what it leaves: its number, the slots, all words.
#[derive(Clone, Copy, Debug)]
pub enum Edit {
    Make,
    Insert,
    Append {
        course: usize,
        tag: u32,
        id: u32,
    },
    Put {
        course: usize,
        place: usize,
        tag: u32,
        id: u32,
    },
    Strike {
        course: usize,
        place: usize,
    },
    Count,
    Length {
        course: usize,
    },
    Entry {
        course: usize,
        place: usize,
    },
}

#[derive(Clone, Debug, PartialEq)]
pub struct Edited {
    pub number: u32,
    pub slots: [u32; 2],
    pub words: Vec<u32>,
}

/// What the slots hold before a call.
pub const SLOTS: [u32; 2] = [0xdead_beef, 7];

impl Edit {
    pub fn ours(self, words: &[u32]) -> Edited {
        let mut words = words.to_vec();
        let mut slots = SLOTS;
        let (at, n) = (words.as_mut_ptr(), words.len());
        let mut one = [SLOTS[0]];
        // SAFETY: each call reads and writes the lent words and slots alone, and keeps no address.
        let number = unsafe {
            match self {
                Self::Make => brunskerl_make_courses(at, n),
                Self::Insert => brunskerl_insert_course(at, n, &mut one),
                Self::Append { course, tag, id } => {
                    brunskerl_append_course_entry(at, n, course, tag, id)
                }
                Self::Put {
                    course,
                    place,
                    tag,
                    id,
                } => brunskerl_put_course_entry(at, n, course, place, tag, id),
                Self::Strike { course, place } => {
                    brunskerl_strike_course_entry(at, n, course, place)
                }
                Self::Count => brunskerl_course_count(at, n, &mut one),
                Self::Length { course } => brunskerl_course_length(at, n, course, &mut one),
                Self::Entry { course, place } => {
                    brunskerl_course_entry(at, n, course, place, &mut slots)
                }
            }
        };
        if !matches!(self, Self::Entry { .. }) {
            slots[0] = one[0];
        }
        Edited {
            number,
            slots,
            words,
        }
    }

    /// 01: "Edits and appended entries give 1, then 2 (edited record missing), 1 for a list place that isn't there, then 8"; 9 first.
    pub fn expected(self, words: &[u32]) -> Edited {
        let mut slots = SLOTS;
        let mut after = words.to_vec();
        let number = self.edited(&mut after, &mut slots);
        if number != 0 {
            return Edited {
                number,
                slots: SLOTS,
                words: words.to_vec(),
            };
        }
        Edited {
            number,
            slots,
            words: after,
        }
    }

    fn edited(self, words: &mut [u32], slots: &mut [u32; 2]) -> u32 {
        if let Self::Make = self {
            let Some(used) = words.first_mut() else {
                return 9;
            };
            *used = 0;
            return 0;
        }
        let Some(courses) = read(words) else {
            return 9;
        };
        let used = courses.len();
        if let Self::Insert = self {
            let room = (words.len() - 1) / STRIDE;
            if used == room.min(256) {
                return 8;
            }
            words[1 + STRIDE * used] = 0;
            words[0] += 1;
            slots[0] = used as u32;
            return 0;
        }
        if let Self::Count = self {
            slots[0] = used as u32;
            return 0;
        }
        let (course, new) = match self {
            Self::Append { course, tag, id }
            | Self::Put {
                course, tag, id, ..
            } => (course, Some((tag, id))),
            Self::Strike { course, .. } | Self::Length { course } | Self::Entry { course, .. } => {
                (course, None)
            }
            Self::Make | Self::Insert | Self::Count => unreachable!(),
        };
        if new.is_some_and(|(tag, id)| tag > 1 || id >= COURSE) {
            return 1;
        }
        let Some(entries) = courses.get(course) else {
            return 2;
        };
        let word = new.map_or(0, |(tag, id)| tag * COURSE + id);
        let at = 1 + STRIDE * course;
        let n = entries.len();
        match self {
            Self::Length { .. } => slots[0] = n as u32,
            Self::Append { .. } if n == 16 => return 8,
            Self::Append { .. } => {
                words[at + 1 + n] = word;
                words[at] += 1;
            }
            Self::Put { place, .. } | Self::Strike { place, .. } | Self::Entry { place, .. }
                if place >= n =>
            {
                return 1;
            }
            Self::Put { place, .. } => words[at + 1 + place] = word,
            Self::Strike { place, .. } => {
                words.copy_within(at + 2 + place..at + 1 + n, at + 1 + place);
                words[at] -= 1;
            }
            Self::Entry { place, .. } => {
                *slots = match entries[place] {
                    Entry::Body(id) => [0, id as u32],
                    Entry::Course(id) => [1, id as u32],
                }
            }
            _ => unreachable!(),
        }
        0
    }
}

// ---- what is asked of a course

#[derive(Clone, Copy, Debug)]
pub struct Ask {
    pub office: u32,
    pub course: usize,
    pub short: bool,
    pub slots: [u64; 3],
}

#[derive(Clone, Copy, Debug, PartialEq)]
pub struct Answer {
    pub number: u32,
    pub slots: [u64; 3],
    pub cleared: bool,
}

impl Ask {
    /// What the station answers; whether the marks are zero. The marks are lent full, at times more of them than there are faces.
    pub fn ours(&self, lent: &Lent, courses: &[u32], mark: u8, more: usize) -> Answer {
        let mut marks = vec![mark; lent.room[3] + more];
        if self.short {
            marks.truncate(lent.room[3].saturating_sub(1));
        }
        let mut slots = self.slots;
        // SAFETY: the call reads the lent memory and the courses, writes to the marks and the slots, and keeps no address.
        let number = unsafe {
            brunskerl_course_total(
                &lent.room,
                lent.words.as_ptr(),
                lent.words.len(),
                lent.reals.as_ptr(),
                lent.reals.len(),
                self.office,
                courses.as_ptr(),
                courses.len(),
                self.course,
                marks.as_mut_ptr(),
                marks.len(),
                &mut slots,
            )
        };
        Answer {
            number,
            slots,
            cleared: marks.iter().all(|&mark| mark == 0),
        }
    }
}

// ---- the rules

/// What a course can be refused for, besides what cannot be read.
#[derive(Clone, Copy, Debug, PartialEq)]
pub enum Test {
    Office,
    Marks,
    Missing,
    Deep,
    Stones,
}

/// What is met on the way, in order: at a level, the asked course's being 1.
#[derive(Clone, Copy, Debug, PartialEq)]
pub enum Met {
    /// A course that is walked: its level, its id, how many entries it has.
    Course(usize, usize, usize),
    NoCourse(usize),
    /// A body: its id, where it is there for the office.
    Body(usize, Option<usize>),
    /// A course listed on the last level, and whether it is there.
    Deep(bool),
}

/// What the request says, each where a wrong station says something else.
#[derive(Clone, Copy)]
pub struct Rule {
    pub tests: [Test; 5],
    /// "nesting stops at four levels"
    pub levels: usize,
    /// Whether a body of any office is there.
    pub any_office: bool,
    /// "2 for a course or body missing within the four levels"
    pub missing: fn(&[Met]) -> bool,
    /// "1 where a course on the fourth level .. lists a course, there or not"
    pub deep: fn(&[Met]) -> bool,
    /// "the first stone in order deciding", of the refusals of all stones.
    pub decides: fn(&[u32]) -> u32,
    /// The stones that count: "a course used twice counts twice".
    pub counted: fn(&[Met]) -> Vec<usize>,
    /// How many there are, of what was met and of those that count.
    pub stones: fn(&[Met], usize) -> u64,
    pub total: fn(&[i128]) -> i128,
}

pub fn is_missing(met: &[Met]) -> bool {
    met.iter()
        .any(|met| matches!(met, Met::NoCourse(_) | Met::Body(_, None)))
}

pub fn bodies(met: &[Met]) -> Vec<usize> {
    let body = |met: &Met| match met {
        Met::Body(_, Some(body)) => Some(*body),
        _ => None,
    };
    met.iter().filter_map(body).collect()
}

impl Rule {
    pub const REQUEST: Self = Self {
        tests: [
            Test::Office,
            Test::Marks,
            Test::Missing,
            Test::Deep,
            Test::Stones,
        ],
        levels: 4,
        any_office: false,
        missing: is_missing,
        deep: |met| met.iter().any(|met| matches!(met, Met::Deep(_))),
        decides: |refusals| refusals.iter().copied().find(|&n| n != 0).unwrap_or(0),
        counted: bodies,
        stones: |_, n| n as u64,
        total: |numbers| numbers.iter().sum(),
    };
}

/// The yard: the courses, and of each body its office, what W-201 refuses it with, and its number.
pub struct Yard {
    pub courses: Vec<Vec<Entry>>,
    pub bodies: Vec<(u32, u32, i128)>,
}

impl Yard {
    /// Without a course as yet.
    pub fn of(station: Station, stones: &[Stone]) -> Self {
        let body = |(id, stone): (usize, &Stone)| {
            let office = station.plain.bodies[id].office;
            let take = Take {
                office,
                body: id,
                short: false,
                sheet: [0; 5],
            };
            let (taken, _) = stone.taken(&take, &sheets::Rule::REQUEST);
            (office, taken.number, sheets::total(&taken.sheet))
        };
        let count = station.plain.bodies.len();
        Self {
            courses: Vec::new(),
            bodies: stones[..count].iter().enumerate().map(body).collect(),
        }
    }

    /// All that is met within the levels, in order.
    pub fn met(&self, ask: &Ask, rule: &Rule) -> Vec<Met> {
        let mut met = Vec::new();
        let mut ahead = vec![(1, Entry::Course(ask.course))];
        while let Some((level, entry)) = ahead.pop() {
            match entry {
                Entry::Body(id) => {
                    let own =
                        |&(office, ..): &(u32, u32, i128)| rule.any_office || office == ask.office;
                    let there = self.bodies.get(id).is_some_and(own);
                    met.push(Met::Body(level, there.then_some(id)));
                }
                Entry::Course(id) if level > rule.levels => {
                    met.push(Met::Deep(id < self.courses.len()))
                }
                Entry::Course(id) => match self.courses.get(id) {
                    None => met.push(Met::NoCourse(level)),
                    Some(entries) => {
                        met.push(Met::Course(level, id, entries.len()));
                        // A body is on the level of the course that lists it.
                        let next = entries.iter().rev().map(|&entry| match entry {
                            Entry::Body(_) => (level, entry),
                            Entry::Course(_) => (level + 1, entry),
                        });
                        ahead.extend(next);
                    }
                },
            }
        }
        met
    }

    /// What is answered by a rule, and in words.
    pub fn answer(&self, ask: &Ask, rule: &Rule) -> (Answer, String) {
        let refused = |number, words: &str| {
            let answer = Answer {
                number,
                slots: ask.slots,
                cleared: true,
            };
            (answer, format!("{number} {words}"))
        };
        let met = self.met(ask, rule);
        let counted = (rule.counted)(&met);
        for test in rule.tests {
            match test {
                Test::Office if ask.office > 1 => return refused(1, "office"),
                Test::Marks if ask.short => return refused(8, "marks"),
                Test::Missing if (rule.missing)(&met) => return refused(2, "missing"),
                Test::Deep if (rule.deep)(&met) => return refused(1, "too deep"),
                Test::Stones => {
                    let refusals: Vec<u32> =
                        bodies(&met).iter().map(|&b| self.bodies[b].1).collect();
                    let number = (rule.decides)(&refusals);
                    if number != 0 {
                        return refused(number, "stone");
                    }
                }
                _ => {}
            }
        }
        let numbers: Vec<i128> = counted.iter().map(|&b| self.bodies[b].2).collect();
        let total = (rule.total)(&numbers);
        let answer = Answer {
            number: 0,
            slots: [
                (rule.stones)(&met, counted.len()),
                total as u64,
                (total >> 64) as u64,
            ],
            cleared: true,
        };
        (answer, "told".into())
    }
}
