//! Wrong stations for the slab profile: each goes by another rule than the request's, or does as the station does and then alters the answer. The comparison must see
//! every one of them.

use crate::slabs::{Answer, Ask, Rule, axis, grid};

#[derive(Clone, Copy)]
pub enum How {
    /// By another rule.
    Rule(fn(&mut Rule)),
    /// Of what is asked, and what is answered.
    Told(fn(&Ask, &mut Answer)),
    /// The office is tested before the memory can be read.
    First,
    /// The tables are written to.
    Tables,
}

pub const WRONGS: [(&str, How); 33] = [
    (
        "asks rule 2 before rule 1",
        How::Rule(|r| r.order = [2, 1, 3, 4, 5, 6]),
    ),
    (
        "asks rule 3 before rule 2",
        How::Rule(|r| r.order = [1, 3, 2, 4, 5, 6]),
    ),
    (
        "asks rule 4 before rule 3",
        How::Rule(|r| r.order = [1, 2, 4, 3, 5, 6]),
    ),
    (
        "asks rule 5 before rule 4",
        How::Rule(|r| r.order = [1, 2, 3, 5, 4, 6]),
    ),
    (
        "asks rule 6 before rule 5",
        How::Rule(|r| r.order = [1, 2, 3, 4, 6, 5]),
    ),
    (
        "asks the last rule first",
        How::Rule(|r| r.order = [6, 1, 2, 3, 4, 5]),
    ),
    (
        "names the second that breaks a rule",
        How::Rule(|r| r.named = |l| l[1.min(l.len() - 1)]),
    ),
    (
        "names the last",
        How::Rule(|r| r.named = |l| l[l.len() - 1]),
    ),
    (
        "names the least",
        How::Rule(|r| r.named = |l| *l.iter().min().expect("one")),
    ),
    (
        "refuses a negative zero in a normal",
        How::Rule(|r| r.axis = |n| axis(n) && n.iter().all(|x| x.to_bits() != 1 << 63)),
    ),
    (
        "takes an axis by its sign alone",
        How::Rule(|r| r.axis = |n| axis(n) && n.iter().sum::<f64>() > 0.0),
    ),
    (
        "takes an axis of any length",
        How::Rule(|r| r.axis = |n| n.iter().filter(|x| **x == 0.0).count() == 2),
    ),
    (
        "takes any normal of length 1",
        How::Rule(|r| r.axis = |n| n.iter().any(|x| x.abs() == 1.0)),
    ),
    (
        "compares coordinates by their bits",
        How::Rule(|r| r.same = |a, b| a.to_bits() == b.to_bits()),
    ),
    (
        "takes near coordinates for one",
        How::Rule(|r| r.same = |a, b| (a - b).abs() < 0.05),
    ),
    (
        "asks for one coordinate at least",
        How::Rule(|r| r.along = |n| n >= 1),
    ),
    (
        "takes an edge of no length",
        How::Rule(|r| r.along = |n| n <= 1),
    ),
    (
        "takes two coordinates",
        How::Rule(|r| r.along = |n| n == 1 || n == 2),
    ),
    (
        "takes a finer grid",
        How::Rule(|r| r.grid = |x| x.abs() <= 2048.0 && (x * 32.0).fract() == 0.0),
    ),
    (
        "takes a coarser grid",
        How::Rule(|r| r.grid = |x| x.abs() <= 2048.0 && (x * 8.0).fract() == 0.0),
    ),
    (
        "takes a grid without end",
        How::Rule(|r| r.grid = |x| (x * 16.0).fract() == 0.0),
    ),
    (
        "takes a grid that ends before 2,048 mm",
        How::Rule(|r| r.grid = |x| grid(x) && x.abs() < 2048.0),
    ),
    (
        "passes two ends that are none",
        How::Rule(|r| r.meets = |a, b| a == b),
    ),
    (
        "passes an end that is none",
        How::Rule(|r| r.meets = |a, b| a.is_none() || b.is_none() || a == b),
    ),
    ("looks at no wire edge", How::Rule(|r| r.wires = false)),
    ("looks at no acorn vertex", How::Rule(|r| r.acorns = false)),
    (
        "tells half of each area",
        How::Rule(|r| r.area = |twice| (twice.unsigned_abs() / 4) as u64),
    ),
    (
        "tells twice each area",
        How::Rule(|r| r.area = |twice| twice.unsigned_abs() as u64),
    ),
    (
        "tells the area of one turn alone",
        How::Rule(|r| r.area = |twice| (twice.max(0) / 2) as u64),
    ),
    (
        "asks for the kind behind the rules",
        How::Rule(|r| r.kind = false),
    ),
    (
        "refuses a short list before a broken rule",
        How::Rule(|r| r.room = |_, faces, lent| lent < faces),
    ),
    (
        "asks for an entry more than there are faces",
        How::Rule(|r| r.room = |ok, faces, lent| ok && lent <= faces),
    ),
    (
        "writes what fits of a short list",
        How::Rule(|r| r.room = |_, _, _| false),
    ),
];

/// Those that alter the answer.
pub const BESIDE: [(&str, How); 9] = [
    (
        "writes the list for a broken rule",
        How::Told(|_, answer| {
            if answer.number == 0 && answer.slots[0] != 0 {
                answer
                    .areas
                    .iter_mut()
                    .take(1)
                    .for_each(|a| *a = a.wrapping_add(1));
            }
        }),
    ),
    (
        "writes the list for a refusal",
        How::Told(|_, answer| {
            if answer.number != 0 {
                answer
                    .areas
                    .iter_mut()
                    .take(1)
                    .for_each(|a| *a = a.wrapping_add(1));
            }
        }),
    ),
    (
        "writes behind the areas",
        How::Told(|ask, answer| {
            let same = |k: &usize| answer.areas[*k] == ask.areas[*k];
            if answer.number == 0
                && answer.slots[0] == 0
                && let Some(k) = (0..answer.areas.len()).rev().find(same)
            {
                answer.areas[k] = answer.areas[k].wrapping_add(1);
            }
        }),
    ),
    (
        "leaves the total as found",
        How::Told(|ask, answer| {
            if answer.number == 0 {
                answer.slots[2] = ask.slots[2];
            }
        }),
    ),
    (
        "writes the slots for a refusal",
        How::Told(|_, answer| {
            if answer.number != 0 {
                answer.slots = [0; 3];
            }
        }),
    ),
    (
        "tells the areas in the other order",
        How::Told(|ask, answer| {
            if answer.number == 0 && answer.slots[0] == 0 {
                let n = (0..answer.areas.len())
                    .rev()
                    .find(|&k| answer.areas[k] != ask.areas[k]);
                answer.areas[..n.map_or(0, |n| n + 1)].reverse();
            }
        }),
    ),
    (
        "leaves a mark",
        How::Told(|_, answer| answer.cleared = false),
    ),
    ("tests the office first", How::First),
    ("writes to the tables", How::Tables),
];
