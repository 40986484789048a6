//! What a mending changes, and in words for an operator.

use std::fmt;

use crate::Entity;

/// How many marks a mending needs, whatever the capacities are.
pub(crate) const MARKS: usize = 6_912;

/// How many words a change takes.
pub(crate) const WORDS: usize = 6;

/// A change that a mending makes ([`crate::Model::mend`]), or would make ([`crate::Model::mend_changes`]).
#[derive(Clone, Copy, Debug, PartialEq, Eq, Hash)]
pub enum Change {
    /// A region names another body, a shell another region, a loop another face, or a fin another loop: the one that lists it.
    Parent { record: Entity, old: u32, new: u32 },
    /// An edge lists a fin that it lacked, at this place, which is the end of its list.
    Fin { edge: u32, place: u32, fin: u32 },
}

impl Change {
    /// A change of six words.
    pub(crate) fn of(words: &[u32]) -> Self {
        match words[2] {
            0 => Self::Parent {
                record: Entity::of(words[0], words[1]),
                old: words[4],
                new: words[5],
            },
            _ => Self::Fin {
                edge: words[1],
                place: words[3],
                fin: words[5],
            },
        }
    }
}

impl fmt::Display for Change {
    fn fmt(&self, f: &mut fmt::Formatter<'_>) -> fmt::Result {
        match *self {
            Self::Parent { record, old, new } => {
                let parent = match record {
                    Entity::Region(_) => Entity::Body,
                    Entity::Shell(_) => Entity::Region,
                    Entity::Loop(_) => Entity::Face,
                    _ => Entity::Loop,
                };
                write!(f, "{record} is of {}, not of {}", parent(new), parent(old))
            }
            Self::Fin { edge, fin, .. } => write!(f, "edge {edge} lists fin {fin}"),
        }
    }
}
