//! Refusals and faults in words for an operator.

use std::fmt;

/// A refused call: nothing was changed. It is a number alone: no call says which record it was refused for.
#[derive(Clone, Copy, Debug, PartialEq, Eq, Hash)]
#[repr(u32)]
pub enum Refusal {
    BadArgument = 1,
    NotFound = 2,
    Degenerate = 4,
    OffGrid = 5,
    NotSolid = 6,
    Unresolved = 7,
    NoRoom = 8,
    Unreadable = 9,
}

impl Refusal {
    pub const ALL: [Self; 8] = [
        Self::BadArgument,
        Self::NotFound,
        Self::Degenerate,
        Self::OffGrid,
        Self::NotSolid,
        Self::Unresolved,
        Self::NoRoom,
        Self::Unreadable,
    ];

    /// The refusal of a number that a call returned, none for 0.
    pub(crate) fn of(number: u32) -> Result<(), Self> {
        if number == 0 {
            return Ok(());
        }
        match Self::ALL.into_iter().find(|r| *r as u32 == number) {
            Some(refusal) => Err(refusal),
            None => unreachable!("no call is refused with {number}"),
        }
    }
}

impl fmt::Display for Refusal {
    fn fmt(&self, f: &mut fmt::Formatter<'_>) -> fmt::Result {
        f.write_str(match self {
            Self::BadArgument => "refused: a value lies outside what the call takes, or a record has two parents",
            Self::NotFound => "refused: a record that is named or needed does not exist",
            Self::Degenerate => "refused: too short, too thin or empty at the session's precision",
            Self::OffGrid => "refused: a coordinate is off the grid of sixteenths of a millimetre, or too large for it; of a drawing, it is no binary32 value",
            Self::NotSolid => "refused: the body is not a solid",
            Self::Unresolved => "refused: the geometry is not carried, or a sign is in doubt",
            Self::NoRoom => "refused: no room is left in a table, in a list or on the sheet, or the body has too many triangles for it",
            Self::Unreadable => "refused: the tables, the image or the sheet cannot be read",
        })
    }
}

impl std::error::Error for Refusal {}

/// A record that a fault is put on, or that is asked for.
#[derive(Clone, Copy, Debug, PartialEq, Eq, Hash)]
pub enum Entity {
    Body(u32),
    Region(u32),
    Shell(u32),
    Face(u32),
    Loop(u32),
    Fin(u32),
    Edge(u32),
    Vertex(u32),
}

impl Entity {
    pub(crate) fn of(class: u32, id: u32) -> Self {
        [
            Self::Body,
            Self::Region,
            Self::Shell,
            Self::Face,
            Self::Loop,
            Self::Fin,
            Self::Edge,
            Self::Vertex,
        ][class as usize](id)
    }

    /// The number of its table, and its id.
    pub(crate) fn named(self) -> (u32, u32) {
        match self {
            Self::Body(id) => (0, id),
            Self::Region(id) => (1, id),
            Self::Shell(id) => (2, id),
            Self::Face(id) => (3, id),
            Self::Loop(id) => (4, id),
            Self::Fin(id) => (5, id),
            Self::Edge(id) => (6, id),
            Self::Vertex(id) => (7, id),
        }
    }
}

impl fmt::Display for Entity {
    fn fmt(&self, f: &mut fmt::Formatter<'_>) -> fmt::Result {
        match self {
            Self::Body(i) => write!(f, "body {i}"),
            Self::Region(i) => write!(f, "region {i}"),
            Self::Shell(i) => write!(f, "shell {i}"),
            Self::Face(i) => write!(f, "face {i}"),
            Self::Loop(i) => write!(f, "loop {i}"),
            Self::Fin(i) => write!(f, "fin {i}"),
            Self::Edge(i) => write!(f, "edge {i}"),
            Self::Vertex(i) => write!(f, "vertex {i}"),
        }
    }
}

/// What is wrong, by the number of the reason, behind the entity's name.
const REASONS: [&str; 26] = [
    "has no regions",
    "has a solid as its first region, which must be the void around it",
    "lists a region that does not exist",
    "does not point back to the body that lists it",
    "lists a shell that does not exist",
    "does not point back to the region that lists it",
    "lists a face that does not exist",
    "points back to no shell that lists it",
    "has no surface",
    "lists a loop that does not exist",
    "does not point back to the face that lists it",
    "has no fins",
    "lists a fin that does not exist",
    "does not point back to the loop that lists it",
    "names an edge that does not exist",
    "does not list a fin that names it",
    "names a vertex that does not exist",
    "does not end where the next fin of its loop starts",
    "is not used by exactly two fins",
    "is used twice in the same direction",
    "has no curve",
    "lies off the curve of an edge that ends there",
    "lies off the surface of a face that it belongs to",
    "lies off the surface of a face that it borders",
    "needs a curve or surface that does not exist",
    "gives no finite measurement",
];

/// A fault: what is wrong, and with which record. The station's reasons are 1 to 26.
#[derive(Clone, Copy, Debug, PartialEq, Eq, Hash)]
pub struct Fault {
    pub kind: u32,
    pub entity: Entity,
    pub reason: u32,
}

impl Fault {
    /// A fault of four words.
    pub(crate) fn of(words: &[u32]) -> Self {
        Self {
            kind: words[0],
            entity: Entity::of(words[1], words[2]),
            reason: words[3],
        }
    }
}

impl fmt::Display for Fault {
    fn fmt(&self, f: &mut fmt::Formatter<'_>) -> fmt::Result {
        let told = (self.reason as usize).checked_sub(1).and_then(|place| REASONS.get(place));
        let words = told.unwrap_or(&"has a fault that has no words here");
        write!(f, "{} {words} (reason {})", self.entity, self.reason)
    }
}

#[cfg(test)]
mod tests {
    use super::*;

    /// Anyone can make a fault of any number; each has words.
    #[test]
    fn every_number_has_words() {
        let entity = Entity::Edge(7);
        let told = |reason| Fault { kind: 1, entity, reason }.to_string();
        assert_eq!(told(1), "edge 7 has no regions (reason 1)");
        assert_eq!(told(26), "edge 7 gives no finite measurement (reason 26)");
        for reason in [0, 27, u32::MAX] {
            assert_eq!(told(reason), format!("edge 7 has a fault that has no words here (reason {reason})"));
        }
    }
}
