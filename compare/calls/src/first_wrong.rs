//! Wrong stations for the first fault: each answers another question, or does as the station does and then alters the answer. The comparison must see every one of
//! them.

use crate::first::{Answer, Fault, Full, Question, told};
use crate::layout::{LISTS, Lent};

#[derive(Clone, Copy)]
pub enum How {
    /// Of what is asked and the full report, what is answered.
    Told(fn(&Question, &Full, &mut Answer)),
    /// Another question.
    Asked(fn(&Lent, &mut Question)),
    /// The full report, where a refusal is given in the place of another one.
    Order(fn(&Lent, &Question) -> Option<u32>),
    /// None, where a check in doubt stands before the first fault.
    Doubt,
    /// The office is tested before the memory can be read.
    First,
    /// The tables are written to.
    Tables,
}

/// Puts another fault in the place of the first, or none, where the report is given.
fn other(full: &Full, answer: &mut Answer, fault: fn(&[Fault]) -> Option<&Fault>) {
    if let Ok((_, faults)) = full {
        answer.slots = told(fault(faults));
    }
}

/// Alters what is answered where there is a fault.
fn altered(answer: &mut Answer, alter: fn([u32; 5]) -> [u32; 5]) {
    if answer.number == 0 && answer.slots[0] == 1 {
        answer.slots = alter(answer.slots);
    }
}

/// The same where there is none.
fn none(full: &Full, answer: &mut Answer, alter: impl FnOnce(usize, &mut Answer)) {
    if let Ok((unchecked, faults)) = full
        && faults.is_empty()
    {
        alter(*unchecked, answer);
    }
}

/// A fault that only a check of geometry finds.
fn of_geometry(fault: &Fault) -> bool {
    fault[3] >= 21
}

/// Whether a check in doubt stands before the first fault: whether the body's faces, up to one of them, have doubts and no fault. Of the body as one that is no solid,
/// whose edges are not asked for two fins.
pub fn doubted(lent: &Lent, question: &Question) -> bool {
    let mut lent = lent.clone();
    let entries = |lent: &Lent, j: usize, i: usize| {
        let (table, place, ..) = LISTS[j];
        let at = lent.word_at(table, i) + place;
        let count = lent.words[at] as usize;
        lent.words[at + 1..][..count].to_vec()
    };
    let used = |lent: &Lent, k: usize, id: u32| id < lent.words[k];
    let kind = lent.word_at(0, question.body);
    lent.words[kind] = 4;
    let mut shells = Vec::new();
    for region in entries(&lent, 0, question.body) {
        if used(&lent, 1, region) {
            shells.extend(entries(&lent, 1, region as usize));
        }
    }
    while let Some(shell) = shells.pop() {
        if !used(&lent, 2, shell) {
            continue;
        }
        let length = lent.word_at(2, shell as usize) + LISTS[2].1;
        while lent.words[length] > 0 {
            match question.own(&lent) {
                Ok((unchecked, faults)) if faults.is_empty() => return unchecked > 0,
                _ => lent.words[length] -= 1,
            }
        }
    }
    false
}

pub const WRONGS: [(&str, How); 48] = [
    (
        "tells the last fault",
        How::Told(|_, full, answer| other(full, answer, |faults| faults.last())),
    ),
    (
        "tells the second fault where there are two",
        How::Told(|_, full, answer| other(full, answer, |faults| faults.get(1).or(faults.first()))),
    ),
    (
        "says none where the first fault is of geometry",
        How::Told(|_, full, answer| {
            other(full, answer, |faults| {
                faults.first().filter(|fault| !of_geometry(fault))
            });
        }),
    ),
    (
        "tells a fault of the topology before one of geometry",
        How::Told(|_, full, answer| {
            other(full, answer, |faults| {
                faults
                    .iter()
                    .find(|fault| !of_geometry(fault))
                    .or(faults.first())
            });
        }),
    ),
    (
        "tells a fault of geometry before one of the topology",
        How::Told(|_, full, answer| {
            other(full, answer, |faults| {
                faults
                    .iter()
                    .find(|fault| of_geometry(fault))
                    .or(faults.first())
            });
        }),
    ),
    (
        "tells the least reason",
        How::Told(|_, full, answer| {
            other(full, answer, |faults| faults.iter().min_by_key(|f| f[3]))
        }),
    ),
    (
        "says none where the first fault is of a fin, an edge or a vertex",
        How::Told(|_, full, answer| {
            other(full, answer, |faults| faults.first().filter(|f| f[1] < 5))
        }),
    ),
    (
        "does not ask the edges of a solid for two fins",
        How::Told(|_, full, answer| {
            other(full, answer, |faults| {
                faults.iter().find(|f| !matches!(f[3], 19 | 20))
            });
        }),
    ),
    (
        "does not ask for fins of both directions",
        How::Told(|_, full, answer| {
            other(full, answer, |faults| faults.iter().find(|f| f[3] != 20))
        }),
    ),
    (
        "does not ask whether the loop is closed",
        How::Told(|_, full, answer| {
            other(full, answer, |faults| faults.iter().find(|f| f[3] != 18))
        }),
    ),
    (
        "says none where a body has one fault",
        How::Told(|_, full, answer| {
            other(full, answer, |faults| {
                faults.first().filter(|_| faults.len() > 1)
            });
        }),
    ),
    (
        "stops at the first check in doubt and says none",
        How::Doubt,
    ),
    (
        "says none where a check is in doubt",
        How::Told(|_, full, answer| {
            if matches!(full, Ok((1.., _))) {
                answer.slots = [0; 5];
            }
        }),
    ),
    (
        "counts what is unchecked as a fault",
        How::Told(|_, full, answer| {
            none(full, answer, |unchecked, answer| {
                answer.slots[0] = u32::from(unchecked > 0)
            });
        }),
    ),
    (
        "gives the number of unchecked as the tag's",
        How::Told(|_, full, answer| {
            none(full, answer, |unchecked, answer| {
                answer.slots[0] = unchecked as u32
            });
        }),
    ),
    (
        "tells what is unchecked as a reason",
        How::Told(|_, full, answer| {
            none(full, answer, |unchecked, answer| {
                answer.slots[4] = unchecked as u32
            });
        }),
    ),
    (
        "does not pass the samples on",
        How::Asked(|_, asked| asked.samples = 0),
    ),
    (
        "passes one sample on where there are more",
        How::Asked(|_, asked| asked.samples = asked.samples.min(1)),
    ),
    (
        "takes three samples",
        How::Asked(|_, asked| asked.samples = 3),
    ),
    (
        "takes one sample fewer",
        How::Asked(|_, asked| {
            if asked.samples < 256 {
                asked.samples = asked.samples.saturating_sub(1);
            }
        }),
    ),
    (
        "takes the samples by their low byte",
        How::Asked(|_, asked| asked.samples &= 255),
    ),
    (
        "takes 256 samples",
        How::Asked(|_, asked| {
            if asked.samples == 256 {
                asked.samples = 255;
            }
        }),
    ),
    (
        "refuses 255 samples",
        How::Asked(|_, asked| {
            if asked.samples == 255 {
                asked.samples = 256;
            }
        }),
    ),
    (
        "refuses samples with geometry alone",
        How::Asked(|_, asked| {
            if asked.geometry == 0 {
                asked.samples = 0;
            }
        }),
    ),
    (
        "checks no geometry",
        How::Asked(|_, asked| asked.geometry = 0),
    ),
    (
        "checks geometry always",
        How::Asked(|_, asked| asked.geometry = 1),
    ),
    (
        "checks geometry where the number is 1",
        How::Asked(|_, asked| asked.geometry = u32::from(asked.geometry == 1)),
    ),
    (
        "checks geometry by the number's lowest bit",
        How::Asked(|_, asked| asked.geometry &= 1),
    ),
    (
        "checks another body",
        How::Asked(|lent, asked| {
            if asked.body + 1 < lent.words[0] as usize {
                asked.body += 1;
            }
        }),
    ),
    (
        "takes a body's id by its low word",
        How::Asked(|_, asked| asked.body &= u32::MAX as usize),
    ),
    (
        "tells the other office's fault",
        How::Asked(|lent, asked| {
            if asked.office < 2 && asked.body < lent.words[0] as usize {
                asked.office = lent.words[lent.word_at(0, asked.body) + 1];
            }
        }),
    ),
    (
        "takes an office above 1 for office 1",
        How::Asked(|_, asked| asked.office = asked.office.min(1)),
    ),
    (
        "takes short marks",
        How::Asked(|_, asked| asked.short = None),
    ),
    (
        "tests the marks before the office",
        How::Order(|_, asked| (asked.office > 1 && asked.short.is_some()).then_some(8)),
    ),
    (
        "tests the samples before the marks",
        How::Order(|_, asked| (asked.office < 2 && asked.samples > 255).then_some(1)),
    ),
    (
        "tests the body before the samples",
        How::Order(|lent, asked| {
            let missing = asked.body >= lent.words[0] as usize;
            (asked.office < 2 && asked.short.is_none() && missing).then_some(2)
        }),
    ),
    (
        "tests the body before the marks",
        How::Order(|lent, asked| {
            let missing = asked.body >= lent.words[0] as usize;
            (asked.office < 2 && asked.samples < 256 && missing).then_some(2)
        }),
    ),
    (
        "says none of a body that is not there",
        How::Told(|_, full, answer| {
            if *full == Err(2) {
                (answer.number, answer.slots) = (0, [0; 5]);
            }
        }),
    ),
    ("tests the office before the memory", How::First),
    (
        "refuses a list of one entry for more faults",
        How::Told(|asked, full, answer| {
            if matches!(full, Ok((_, faults)) if faults.len() > 1) {
                (answer.number, answer.slots) = (8, asked.slots);
            }
        }),
    ),
    (
        "leaves the marks where it stops at a fault",
        How::Told(|_, full, answer| {
            answer.cleared = !matches!(full, Ok((_, faults)) if !faults.is_empty())
        }),
    ),
    (
        "leaves the marks where it is refused",
        How::Told(|_, full, answer| answer.cleared = full.is_ok()),
    ),
    (
        "writes zeros to the slots where it is refused",
        How::Told(|_, full, answer| {
            if full.is_err() {
                answer.slots = [0; 5];
            }
        }),
    ),
    (
        "writes the tag where it is refused",
        How::Told(|_, full, answer| {
            if full.is_err() {
                answer.slots[0] = 0;
            }
        }),
    ),
    (
        "gives the tag 1 with none",
        How::Told(|_, full, answer| none(full, answer, |_, answer| answer.slots[0] = 1)),
    ),
    (
        "writes the tag alone where there is none",
        How::Told(|asked, full, answer| {
            none(full, answer, |_, answer| {
                answer.slots[1..].copy_from_slice(&asked.slots[1..])
            });
        }),
    ),
    (
        "tells the reason first, as the comparison does",
        How::Told(|_, _, answer| {
            altered(answer, |[tag, kind, class, id, reason]| {
                [tag, reason, kind, class, id]
            });
        }),
    ),
    ("writes to the tables", How::Tables),
];
