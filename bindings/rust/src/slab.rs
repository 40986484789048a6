//! The slab profile of a body, and a broken rule in words for an operator.

use std::fmt;

use crate::Entity;

/// What [`crate::Model::slab_profile`] tells of a body.
#[derive(Clone, Debug, PartialEq, Eq)]
pub enum Profile {
    /// All rules hold. Areas are exact, in square sixteenths of a millimetre: of each face in the order of the walk, and in all.
    Accepted { areas: Vec<u64>, total: u64 },
    /// The first rule that is broken, and the first in walk order that breaks it.
    Broken { rule: Rule, entity: Entity },
}

/// A rule of the slab profile.
#[derive(Clone, Copy, Debug, PartialEq, Eq, PartialOrd, Ord, Hash)]
pub enum Rule {
    /// The normal of a face's plane is a signed axis.
    Normal = 1,
    /// A face has one loop.
    OneLoop,
    /// A fin ends where the next starts.
    Closed,
    /// The ends of an edge differ in exactly one coordinate.
    Along,
    /// The coordinates of a vertex are on the grid.
    Grid,
    /// The corners of a face have one value on the axis of its normal.
    Level,
}

impl Rule {
    /// A rule by its number, with what breaks it.
    pub(crate) fn broken(number: u64, id: u64) -> (Self, Entity) {
        let id = id as u32;
        match number {
            1 => (Self::Normal, Entity::Face(id)),
            2 => (Self::OneLoop, Entity::Face(id)),
            3 => (Self::Closed, Entity::Fin(id)),
            4 => (Self::Along, Entity::Edge(id)),
            5 => (Self::Grid, Entity::Vertex(id)),
            _ => (Self::Level, Entity::Face(id)),
        }
    }
}

impl fmt::Display for Rule {
    fn fmt(&self, f: &mut fmt::Formatter<'_>) -> fmt::Result {
        f.write_str(match self {
            Self::Normal => "its normal is no signed axis",
            Self::OneLoop => "it has not one loop",
            Self::Closed => "it does not end where the next fin starts",
            Self::Along => "its ends do not differ in exactly one coordinate",
            Self::Grid => "it is not on the grid",
            Self::Level => "its corners have not one value on the axis of its normal",
        })
    }
}
