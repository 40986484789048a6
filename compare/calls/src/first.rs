//! The first fault alone: W-207 once more, from the request's words, over the full report for the same options.

use crate::layout::Lent;
use crate::offices::{Ask, Station};

/// Of each fault kind, class, id and reason.
pub type Fault = [u32; 4];

/// What is asked: by an office, of a body, by the report's options, with marks of faces or of edges that lack a place, and what the slots hold.
#[derive(Clone, Copy, Debug)]
pub struct Question {
    pub office: u32,
    pub body: usize,
    pub geometry: u32,
    pub samples: usize,
    pub short: Option<usize>,
    pub slots: [u32; 5],
}

/// The number that is answered, the slots behind it, and whether all marks are zero.
#[derive(Clone, Copy, Debug, PartialEq)]
pub struct Answer {
    pub number: u32,
    pub slots: [u32; 5],
    pub cleared: bool,
}

/// The full report, or its refusal.
pub type Full = Result<(usize, Vec<Fault>), u32>;

/// A report as numbers: 0, `unchecked`, then reason, kind, class and id of each fault, at times their number behind them; or the refusal alone.
fn full(numbers: &[u64]) -> Full {
    let [0, unchecked, faults @ ..] = numbers else {
        return Err(numbers[0] as u32);
    };
    let faults = faults.chunks_exact(4).map(|fault| {
        let [reason, kind, class, id] = [0, 1, 2, 3].map(|k| fault[k] as u32);
        [kind, class, id, reason]
    });
    Ok((*unchecked as usize, faults.collect()))
}

impl Question {
    /// What the station answers. The marks are lent full, at times more of them than there are records.
    pub fn ours(&self, lent: &Lent, mark: u8, more: usize) -> Answer {
        let [mut faces, mut edges] = [3, 6].map(|k| vec![mark; lent.room[k] + more]);
        match self.short {
            Some(0) => faces.truncate(lent.room[3].saturating_sub(1)),
            Some(_) => edges.truncate(lent.room[6].saturating_sub(1)),
            None => {}
        }
        let mut slots = self.slots;
        let marks = [&mut faces[..], &mut edges[..]];
        let number = lent.first_fault(self.body, self.geometry, self.samples, marks, &mut slots);
        Answer {
            number,
            slots,
            cleared: faces.iter().chain(&edges).all(|&mark| mark == 0),
        }
    }

    /// The full report of the Rust, with refusals 8 and 1 as the full check has them; or why there is no likeness of it in the Rust. An id above every table is
    /// asked about as the one behind the last body.
    pub fn rust(&self, station: Station) -> Result<Full, &'static str> {
        let body = self.body.min(station.plain.bodies.len());
        let ask = Ask::Report(body, self.geometry != 0, self.samples, usize::MAX / 8);
        let (numbers, _) = station.answer(self.office, ask, self.short.is_some())?;
        Ok(full(&numbers))
    }

    /// The full report of the station itself, for memory that the Rust has no likeness of.
    pub fn own(&self, lent: &Lent) -> Full {
        let mut marks = lent.marks(1);
        if let Some(short) = self.short {
            marks[short].pop();
        }
        let ask = |places, marks| {
            lent.check_with(self.body, self.geometry != 0, self.samples, places, marks)
        };
        let (_, faults) = ask(0, marks.clone());
        full(&ask(faults, marks).0)
    }

    /// "it gives the first entry of the full list for the same options, and "none" exactly where that list has no entry"; "Refusals: those of the full check",
    /// which leave the slots.
    pub fn answer(&self, full: &Full) -> Answer {
        let (number, slots) = match full {
            Err(number) => (*number, self.slots),
            Ok((_, faults)) => (0, told(faults.first())),
        };
        Answer {
            number,
            slots,
            cleared: true,
        }
    }
}

/// A fault, or none, in the five slots.
pub fn told(fault: Option<&Fault>) -> [u32; 5] {
    fault.map_or([0; 5], |&[kind, class, id, reason]| {
        [1, kind, class, id, reason]
    })
}
