//! Courses within courses.

use crate::{Refusal, ffi};

/// How many courses a table has at most, and how many entries a course.
const COURSES: usize = 256;
/// How many words a course takes.
const WORDS: usize = 17;

/// A table of courses, which a mason orders by; [`Model::course_total`](crate::Model::course_total) adds up the stones of one.
///
/// A course has up to 16 entries, each a body or another course. Which bodies and courses there are is looked at where a course is asked for, not where it is edited.
#[derive(Clone, Debug)]
pub struct Courses(Vec<u32>);

/// An entry of a course. Ids are below 65,536.
#[derive(Clone, Copy, Debug, PartialEq, Eq)]
pub enum Entry {
    Body(u32),
    Course(u32),
}

/// The stones of a course: how many, and the exact sum of their numbers, as [`Sheet`](crate::Sheet) has them.
#[derive(Clone, Copy, Debug, PartialEq, Eq)]
pub struct CourseTotal {
    pub stones: u64,
    pub total: i128,
}

impl Entry {
    fn words(self) -> (u32, u32) {
        match self {
            Self::Body(id) => (0, id),
            Self::Course(id) => (1, id),
        }
    }
}

impl CourseTotal {
    pub(crate) fn of([stones, low, high]: [u64; 3]) -> Self {
        Self {
            stones,
            total: i128::from(high.cast_signed()) << 64 | i128::from(low),
        }
    }
}

/// A call on the table's words.
macro_rules! on {
    ($words:expr, $call:ident($($given:expr),*)) => {
        // SAFETY: the pointer and the length are those of a slice that lives through the call, which keeps no address; it is borrowed to be written to where the call writes.
        Refusal::of(unsafe { ffi::$call($words, $($given),*) })
    };
}

impl Courses {
    /// A table without courses, with room for so many, at most 256.
    pub fn new(room: usize) -> Self {
        let mut courses = Self(vec![0; 1 + WORDS * room.min(COURSES)]);
        on!(courses.0.as_mut_ptr(), brunskerl_make_courses(courses.0.len())).expect("it has a word");
        courses
    }

    /// An empty course more, and its id. [`Refusal::NoRoom`].
    pub fn insert(&mut self) -> Result<u32, Refusal> {
        let mut id = [0];
        on!(self.0.as_mut_ptr(), brunskerl_insert_course(self.0.len(), &mut id)).map(|()| id[0])
    }

    /// An entry more at the end of a course. [`Refusal::BadArgument`] for an id above 65,535, [`Refusal::NotFound`] for a missing course, [`Refusal::NoRoom`] for a course
    /// of 16 entries.
    pub fn append(&mut self, course: u32, entry: Entry) -> Result<(), Refusal> {
        let (tag, id) = entry.words();
        on!(
            self.0.as_mut_ptr(),
            brunskerl_append_course_entry(self.0.len(), course as usize, tag, id)
        )
    }

    /// Another entry at a place of a course. [`Refusal::BadArgument`] for an id above 65,535, [`Refusal::NotFound`] for a missing course, [`Refusal::BadArgument`] for a
    /// place that is not there.
    pub fn put(&mut self, course: u32, place: usize, entry: Entry) -> Result<(), Refusal> {
        let (tag, id) = entry.words();
        on!(
            self.0.as_mut_ptr(),
            brunskerl_put_course_entry(self.0.len(), course as usize, place, tag, id)
        )
    }

    /// Without the entry at a place of a course. [`Refusal::NotFound`] for a missing course, [`Refusal::BadArgument`] for a place that is not there.
    pub fn strike(&mut self, course: u32, place: usize) -> Result<(), Refusal> {
        on!(
            self.0.as_mut_ptr(),
            brunskerl_strike_course_entry(self.0.len(), course as usize, place)
        )
    }

    /// How many courses there are.
    pub fn count(&self) -> u32 {
        let mut count = [0];
        on!(self.0.as_ptr(), brunskerl_course_count(self.0.len(), &mut count)).expect("the calls leave a table that can be read");
        count[0]
    }

    /// The entries of a course. [`Refusal::NotFound`] for a missing one.
    pub fn entries(&self, course: u32) -> Result<Vec<Entry>, Refusal> {
        let mut length = [0];
        on!(self.0.as_ptr(), brunskerl_course_length(self.0.len(), course as usize, &mut length))?;
        (0..length[0] as usize).map(|place| self.entry(course, place)).collect()
    }

    /// The entry at a place of a course. [`Refusal::NotFound`] for a missing course, [`Refusal::BadArgument`] for a place that is not there.
    pub fn entry(&self, course: u32, place: usize) -> Result<Entry, Refusal> {
        let mut entry = [0; 2];
        on!(
            self.0.as_ptr(),
            brunskerl_course_entry(self.0.len(), course as usize, place, &mut entry)
        )?;
        Ok(match entry {
            [0, id] => Entry::Body(id),
            [_, id] => Entry::Course(id),
        })
    }

    pub(crate) fn words(&self) -> &[u32] {
        &self.0
    }
}
