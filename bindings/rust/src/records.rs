//! The records as typed values, and how they cross to the station's calls.

use crate::{Refusal, directions};

/// The version of the drawing practice that a model goes by. It says which tolerance of an edge or a vertex is in effect where an edge is split, a body
/// checked, and where it is asked whether one is fit to saw. The session's tolerance is half the precision.
#[derive(Clone, Copy, Debug, Default, PartialEq, Eq, Hash)]
#[repr(u32)]
pub enum Version {
    /// The record's own tolerance, or the session's where it has none.
    #[default]
    First = 1,
    /// The larger of the record's own tolerance and the session's, or the session's where it has none.
    Second = 2,
}

impl Version {
    pub(crate) fn of(number: u32) -> Self {
        match number {
            1 => Self::First,
            2 => Self::Second,
            _ => unreachable!("no model is of version {number}"),
        }
    }

    /// The tolerance in effect, of a record's own and the session's.
    pub(crate) fn tolerance(self, own: Option<f64>, session: f64) -> f64 {
        match (self, own) {
            (_, None) => session,
            (Self::First, Some(own)) => own,
            (Self::Second, Some(own)) => own.max(session),
        }
    }
}

/// A drawing office. Two share the tables of a model; each body is one's, and does not exist for the other.
#[derive(Clone, Copy, Debug, Default, PartialEq, Eq, Hash)]
#[repr(u32)]
pub enum Office {
    #[default]
    First,
    Second,
}

/// A body's kind.
#[derive(Clone, Copy, Debug, PartialEq, Eq, Hash)]
#[repr(u32)]
pub enum BodyKind {
    Acorn,
    Wire,
    Sheet,
    Solid,
    General,
}

/// With or against the direction of what is used.
#[derive(Clone, Copy, Debug, PartialEq, Eq, Hash)]
#[repr(u32)]
pub enum Sense {
    Positive,
    Negative,
}

/// A line or a plane, or geometry that is not carried.
///
/// The station takes a direction and a normal as they are, and its calls mean what they say only where these have the length 1, as the Rust
/// makes them. On a line whose direction is longer or shorter an edge has other parameters, and a split can put its vertex beyond the edge's
/// end; from a plane whose normal is, distances are as many times too long or too short. So nobody need write one by hand:
/// [`Carrier::line_through`], [`Carrier::line`], [`Carrier::plane_through`] and [`Carrier::plane`] make them with the Rust's bits.
#[derive(Clone, Copy, Debug, PartialEq)]
pub enum Carrier {
    Line { origin: [f64; 3], direction: [f64; 3] },
    Plane { origin: [f64; 3], normal: [f64; 3] },
    Other,
}

impl Carrier {
    /// The line from a towards b, with its origin at a, at the model's precision: [`Refusal::BadArgument`] where a is not finite,
    /// [`Refusal::Degenerate`] where b is not farther than the precision from it.
    pub fn line_through(a: [f64; 3], b: [f64; 3], precision: f64) -> Result<Self, Refusal> {
        let direction = directions::through(a, b, precision)?;
        Ok(Self::Line { origin: a, direction })
    }

    /// The line from a point along a way of any length above the precision; refused as [`Carrier::line_through`] is.
    pub fn line(origin: [f64; 3], way: [f64; 3], precision: f64) -> Result<Self, Refusal> {
        let direction = directions::along(origin, way, precision)?;
        Ok(Self::Line { origin, direction })
    }

    /// The plane through three points, with its origin at the first; they run anticlockwise as seen from the normal's tip.
    /// [`Refusal::BadArgument`] where one is not finite, [`Refusal::Degenerate`] where another lies within the precision of the first, or all
    /// lie on a line.
    pub fn plane_through(points: [[f64; 3]; 3], precision: f64) -> Result<Self, Refusal> {
        let normal = directions::spanned(points, precision)?;
        Ok(Self::Plane { origin: points[0], normal })
    }

    /// The plane through a point with a normal of any length above the precision; refused as [`Carrier::line_through`] is.
    pub fn plane(origin: [f64; 3], normal: [f64; 3], precision: f64) -> Result<Self, Refusal> {
        let normal = directions::along(origin, normal, precision)?;
        Ok(Self::Plane { origin, normal })
    }
}

#[derive(Clone, Copy, Debug, PartialEq, Eq)]
pub struct Region {
    pub body: u32,
    pub solid: bool,
}

#[derive(Clone, Copy, Debug, PartialEq, Eq)]
pub struct Face {
    pub front: Option<u32>,
    pub back: Option<u32>,
    pub surface: Option<u32>,
    pub sense: Sense,
}

#[derive(Clone, Copy, Debug, PartialEq, Eq)]
pub struct Fin {
    pub owner: u32,
    pub edge: u32,
    pub sense: Sense,
    pub pcurve: bool,
}

#[derive(Clone, Copy, Debug, PartialEq)]
pub struct Edge {
    pub start: Option<u32>,
    pub end: Option<u32>,
    pub curve: Option<u32>,
    /// Its own; [`Version`] says which is in effect.
    pub tolerance: Option<f64>,
}

#[derive(Clone, Copy, Debug, PartialEq)]
pub struct Vertex {
    pub point: [f64; 3],
    /// Its own; [`Version`] says which is in effect.
    pub tolerance: Option<f64>,
}

/// The eight lists of the records.
#[derive(Clone, Copy, Debug, PartialEq, Eq, Hash)]
#[repr(usize)]
pub enum List {
    RegionsOfBody,
    ShellsOfRegion,
    FacesOfShell,
    WireEdgesOfShell,
    AcornVerticesOfShell,
    LoopsOfFace,
    FinsOfLoop,
    FinsOfEdge,
}

pub(crate) fn kind(tag: u32) -> BodyKind {
    [BodyKind::Acorn, BodyKind::Wire, BodyKind::Sheet, BodyKind::Solid, BodyKind::General][tag as usize]
}

pub(crate) fn sense(tag: u32) -> Sense {
    if tag == 0 { Sense::Positive } else { Sense::Negative }
}

pub(crate) fn optional(tag: u32, id: u32) -> Option<u32> {
    (tag != 0).then_some(id)
}

pub(crate) fn tag(id: Option<u32>) -> [u32; 2] {
    id.map_or([0, 0], |id| [1, id])
}

impl Region {
    pub(crate) fn value(&self) -> [u32; 2] {
        [self.body, self.solid.into()]
    }
}

impl Face {
    pub(crate) fn value(&self) -> [u32; 7] {
        let ([a, b], [c, d], [e, f]) = (tag(self.front), tag(self.back), tag(self.surface));
        [a, b, c, d, e, f, self.sense as u32]
    }
}

impl Fin {
    pub(crate) fn value(&self) -> [u32; 4] {
        [self.owner, self.edge, self.sense as u32, self.pcurve.into()]
    }
}

impl Edge {
    pub(crate) fn value(&self) -> ([u32; 7], [f64; 1]) {
        let ([a, b], [c, d], [e, f]) = (tag(self.start), tag(self.end), tag(self.curve));
        let own = self.tolerance.is_some().into();
        ([a, b, c, d, e, f, own], [self.tolerance.unwrap_or(0.0)])
    }
}

impl Vertex {
    pub(crate) fn value(&self) -> ([u32; 1], [f64; 4]) {
        let [x, y, z] = self.point;
        let own = self.tolerance.is_some().into();
        ([own], [x, y, z, self.tolerance.unwrap_or(0.0)])
    }
}

impl Carrier {
    pub(crate) fn value(&self) -> ([u32; 1], [f64; 6]) {
        let six = |[a, b, c]: [f64; 3], [d, e, f]: [f64; 3]| [a, b, c, d, e, f];
        match *self {
            Self::Line { origin, direction } => ([0], six(origin, direction)),
            Self::Plane { origin, normal } => ([1], six(origin, normal)),
            Self::Other => ([2], [0.0; 6]),
        }
    }

    pub(crate) fn of([tag]: [u32; 1], [a, b, c, d, e, f]: [f64; 6]) -> Self {
        let (origin, way) = ([a, b, c], [d, e, f]);
        match tag {
            0 => Self::Line { origin, direction: way },
            1 => Self::Plane { origin, normal: way },
            _ => Self::Other,
        }
    }
}
