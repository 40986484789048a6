//! What the station is asked about single records and for the version, as a C program links it, each answer as numbers: 0 and
//! the value's, or the refusal alone.

use models::plain::{bits, optional};

use crate::layout::Lent;
use crate::ours::{Room, UNTOUCHED, UNTOUCHED_REAL, answer};

#[link(name = "station", kind = "static")]
unsafe extern "C" {
    fn brunskerl_fin_vertices(
        room: Room,
        words: *const u32,
        n: usize,
        reals: *const f64,
        m: usize,
        fin: usize,
        value: *mut [u32; 4],
    ) -> u32;
    fn brunskerl_edge_parameter_bounds(
        room: Room,
        words: *const u32,
        n: usize,
        reals: *const f64,
        m: usize,
        edge: usize,
        value: *mut [f64; 2],
    ) -> u32;
    fn brunskerl_contains(
        room: Room,
        words: *const u32,
        n: usize,
        reals: *const f64,
        m: usize,
        office: u32,
        class: u32,
        id: usize,
        value: *mut [u32; 1],
    ) -> u32;
}

/// A question.
#[derive(Clone, Copy, Debug)]
pub enum Query {
    /// `fin_vertices`: each end as 0 or the id's successor.
    Ends(usize),
    /// `edge_parameter_bounds`: the bits of both.
    Bounds(usize),
    /// `contains`, by class and id: 1 or 0.
    Contains(u32, usize),
    /// The model's version.
    Version,
}

fn numbers<T>(answer: Result<T, u32>, value: impl FnOnce(T) -> Vec<u64>) -> Vec<u64> {
    match answer {
        Ok(given) => [vec![0], value(given)].concat(),
        Err(number) => vec![number.into()],
    }
}

/// Calls with the lent memory, then with what is given.
macro_rules! asked {
    ($lent:ident, $call:ident $(, $argument:expr)*) => {
        // SAFETY: the call reads the lent memory, writes the value and keeps no address.
        unsafe {
            $call(
                &$lent.room,
                $lent.words.as_ptr(),
                $lent.words.len(),
                $lent.reals.as_ptr(),
                $lent.reals.len(),
                $($argument),*
            )
        }
    };
}

impl Query {
    pub const fn name(self) -> &'static str {
        match self {
            Self::Ends(_) => "fin_vertices",
            Self::Bounds(_) => "edge_parameter_bounds",
            Self::Contains(..) => "contains",
            Self::Version => "version",
        }
    }

    pub fn ours(self, lent: &Lent) -> Vec<u64> {
        match self {
            Self::Ends(fin) => {
                let mut value = [UNTOUCHED; 4];
                let number = asked!(lent, brunskerl_fin_vertices, fin, &mut value);
                let end = |tag: u32, id: u32| match tag {
                    // An id that is none is 0.
                    0 if id == 0 => 0,
                    1 => optional(Some(id as usize)),
                    _ => u64::MAX,
                };
                numbers(answer(number, value, value == [UNTOUCHED; 4]), |[a, b, c, d]| {
                    vec![end(a, b), end(c, d)]
                })
            }
            Self::Bounds(edge) => {
                let mut value = [UNTOUCHED_REAL; 2];
                let number = asked!(lent, brunskerl_edge_parameter_bounds, edge, &mut value);
                let untouched = value == [UNTOUCHED_REAL; 2];
                numbers(answer(number, value, untouched), |value| {
                    value.map(bits).to_vec()
                })
            }
            Self::Contains(class, id) => {
                let mut value = [UNTOUCHED; 1];
                let number = asked!(lent, brunskerl_contains, lent.office, class, id, &mut value);
                numbers(answer(number, value, value == [UNTOUCHED; 1]), |[yes]| {
                    vec![yes.into()]
                })
            }
            Self::Version => numbers(lent.version(), |version| vec![version.into()]),
        }
    }
}
