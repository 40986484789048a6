//! Two drawing offices on one station: W-206 once more, from the request's words alone, over the Rust, with `models/src/offices.rs`: a body of the other office
//! is asked about as the id behind the last body, and an edge of its walks as the one behind the last edge.

use gensolid_topo::Model;
use models::offices::body_for;
use models::original::{self, KINDS, Names};
use models::plain::Plain;

use crate::layout::{LISTS, Lent};
use crate::operations::list;
use crate::queries::Query;
use crate::walks::Walk;

/// What an office may ask about a body, or about a list of any record.
#[derive(Clone, Copy, Debug)]
pub enum Ask {
    Body(usize),
    /// By class and id.
    Contains(u32, usize),
    /// By list, record and place.
    Entry(usize, usize, usize),
    /// Of faces, edges or vertices; the body; the places of the list.
    Walk(usize, usize, usize),
    Box(usize),
    Volume(usize),
    /// The body; geometry, samples, and the places of the list.
    Report(usize, bool, usize, usize),
    Fit(usize),
}

impl Ask {
    pub const fn name(self) -> &'static str {
        match self {
            Self::Body(_) => "body",
            Self::Contains(..) => "contains",
            Self::Entry(..) => "list entry",
            Self::Walk(..) => "walk",
            Self::Box(_) => "box",
            Self::Volume(_) => "volume",
            Self::Report(..) => "report",
            Self::Fit(_) => "fit to saw",
        }
    }

    /// The body that it names.
    pub const fn body(self) -> Option<usize> {
        match self {
            Self::Contains(0, body) | Self::Entry(0, body, _) => Some(body),
            Self::Contains(..) | Self::Entry(..) => None,
            Self::Body(body)
            | Self::Walk(_, body, _)
            | Self::Box(body)
            | Self::Volume(body)
            | Self::Report(body, ..)
            | Self::Fit(body) => Some(body),
        }
    }

    /// The same of another body.
    pub const fn of(self, body: usize) -> Self {
        match self {
            Self::Body(_) => Self::Body(body),
            Self::Contains(class, _) => Self::Contains(class, body),
            Self::Entry(j, _, place) => Self::Entry(j, body, place),
            Self::Walk(which, _, places) => Self::Walk(which, body, places),
            Self::Box(_) => Self::Box(body),
            Self::Volume(_) => Self::Volume(body),
            Self::Report(_, geometry, samples, places) => {
                Self::Report(body, geometry, samples, places)
            }
            Self::Fit(_) => Self::Fit(body),
        }
    }

    /// How many of the marks of faces, edges and vertices it is lent.
    pub const fn marks(self) -> usize {
        match self {
            Self::Body(_) | Self::Contains(..) | Self::Entry(..) => 0,
            Self::Walk(which, ..) => which + 1,
            Self::Box(_) => 3,
            Self::Volume(_) => 1,
            Self::Report(..) | Self::Fit(_) => 2,
        }
    }

    /// The station's answer to the office that the memory is asked by: 0 and the value's numbers, or the refusal alone. One of the marks may lack a
    /// place.
    pub fn ours(self, lent: &Lent, short: Option<usize>, mark: u8) -> Vec<u64> {
        let mut marks = lent.marks(mark);
        if let Some(short) = short {
            marks[short].pop();
        }
        let numbers = |answer: Result<Vec<u32>, u32>| match answer {
            Ok(value) => [0].into_iter().chain(value).map(u64::from).collect(),
            Err(number) => vec![number.into()],
        };
        match self {
            Self::Body(body) => numbers(lent.body_value(lent.office, body).map(Vec::from)),
            Self::Contains(class, id) => Query::Contains(class, id).ours(lent),
            Self::Entry(j, i, place) => numbers(lent.entry(j, i, place).map(|id| vec![id])),
            Self::Walk(which, body, places) => {
                let mut walk = Walk::new(lent, places, mark);
                walk.marks = marks;
                walk.answer(lent, which, body)
            }
            Self::Box(body) => lent.bounding_box_with(body, marks),
            Self::Volume(body) => lent.volume_with(body, marks),
            Self::Report(body, geometry, samples, places) => {
                let (mut given, faults) = lent.check_with(body, geometry, samples, places, marks);
                if given[0] == 0 {
                    given.push(faults as u64);
                }
                given
            }
            Self::Fit(body) => lent.fit_with(body, marks),
        }
    }
}

/// A model in the Rust, and its bodies' offices.
#[derive(Clone, Copy)]
pub struct Station<'a> {
    pub model: &'a Model,
    pub names: &'a Names,
    pub plain: &'a Plain,
}

impl Station<'_> {
    /// What the office must be answered, and in words; or why there is no likeness of it in the Rust. "1 for an office above 1, right after 9 and
    /// before the 8 for short marks".
    pub fn answer(
        &self,
        office: u32,
        ask: Ask,
        short: bool,
    ) -> Result<(Vec<u64>, String), &'static str> {
        let Self { model, names, .. } = *self;
        if office > 1 {
            return Ok((vec![1], "an office above 1".into()));
        }
        if short {
            return Ok((vec![8], "short marks".into()));
        }
        let told = |told: original::Told| (told.numbers, told.words);
        // Of what names no body nothing changes.
        let named = ask
            .body()
            .map_or(0, |body| body_for(self.plain, office, body));
        Ok(match ask {
            Ask::Body(_) => match model.body(names.bodies[named]) {
                Ok(r) => {
                    let kind = KINDS.iter().position(|k| k.1 == r.kind);
                    let kind = kind.expect("five kinds") as u64;
                    (vec![0, kind, r.regions.len() as u64], "given".into())
                }
                Err(error) => (vec![error.code() as u64], "refused".into()),
            },
            Ask::Contains(8.., _) => (vec![1], "a class that is none".into()),
            Ask::Contains(class, id) => {
                let id = if class == 0 { named } else { id };
                let yes = original::contains(model, names, class, id);
                (vec![0, yes.into()], format!("{yes}"))
            }
            Ask::Entry(8.., ..) => (vec![1], "a list that is none".into()),
            Ask::Entry(j, i, place) => {
                let i = if j == 0 { named } else { i };
                if i >= self.plain.used()[LISTS[j].0] {
                    (vec![2], "no such record".into())
                } else if let Some(&id) = list(self.plain, j, i).get(place) {
                    (vec![0, id as u64], "given".into())
                } else {
                    (vec![1], "no such place".into())
                }
            }
            Ask::Walk(which, _, places) => {
                let [faces, edges, vertices] = original::walks(model, names, named);
                let told = [faces, edges, vertices].into_iter().nth(which);
                let told = told.expect("three walks");
                if !told.refused() && told.numbers.len() - 1 > places {
                    (vec![8], "a short list".into())
                } else {
                    (told.numbers, told.words)
                }
            }
            Ask::Box(_) => told(original::boxed(model, names, named)),
            Ask::Volume(_) => told(original::volume(model, names, named)),
            Ask::Report(_, _, 256.., _) => (vec![1], "samples above 255".into()),
            Ask::Report(_, geometry, samples, places) => {
                let told = original::report(model, names, named, geometry, samples)?;
                if told.refused() {
                    return Ok((told.numbers, "refused".into()));
                }
                let mut numbers = told.numbers;
                let faults = (numbers.len() - 2) / 4;
                numbers.truncate(2 + 4 * places);
                numbers.push(faults as u64);
                (numbers, told.words)
            }
            Ask::Fit(_) => told(original::verdict(model, names, named)?),
        })
    }
}

// ---- what is reached from an office's bodies

/// Which records are reached from the bodies of an office, and, of each table, where the ids that were met on the way leave its count free: from just above
/// those that name a record to the least that names none.
pub struct Reached {
    pub records: [Vec<bool>; 10],
    pub counts: [(usize, usize); 10],
}

/// The ids of list j of record i.
pub fn entries(lent: &Lent, j: usize, i: usize) -> Vec<u32> {
    let (table, place, ..) = LISTS[j];
    let at = lent.word_at(table, i) + place;
    lent.words[at + 1..][..lent.words[at] as usize].to_vec()
}

/// Whether the body is there, and of the other office.
pub fn foreign(lent: &Lent, body: usize) -> bool {
    body < lent.words[0] as usize && lent.words[lent.word_at(0, body) + 1] != lent.office
}

impl Reached {
    /// From the bodies of the office that the memory is asked by: their regions, the shells of those, their faces, their loops, their fins, the edges of those
    /// fins and the wire edges of the shells, the ends of those edges and the acorn vertices of the shells, the edges' curves and the faces' surfaces, and
    /// the fins that the edges list, which are not followed. Nor is an id that names no record.
    pub fn of(lent: &Lent) -> Self {
        let used: [usize; 10] = std::array::from_fn(|k| lent.words[k] as usize);
        let mut reached = Self {
            records: used.map(|n| vec![false; n]),
            counts: lent.room.map(|slots| (0, slots)),
        };
        let mut followed = used.map(|n| vec![false; n]);
        let own = (0..used[0]).filter(|&body| !foreign(lent, body));
        let mut next: Vec<(usize, u32)> = own.map(|body| (0, body as u32)).collect();
        while let Some((k, id)) = next.pop() {
            if !reached.meet(k, id) || std::mem::replace(&mut followed[k][id as usize], true) {
                continue;
            }
            let i = id as usize;
            let at = lent.word_at(k, i);
            let mut lists = |js: &[usize]| {
                for &j in js {
                    next.extend(entries(lent, j, i).into_iter().map(|id| (LISTS[j].3, id)));
                }
            };
            let optional = |place: usize| {
                let some = lent.words[at + place] != 0;
                some.then(|| lent.words[at + place + 1])
            };
            match k {
                0 => lists(&[0]),
                1 => lists(&[1]),
                2 => lists(&[2, 3, 4]),
                3 => {
                    lists(&[5]);
                    next.extend(optional(4).map(|id| (9, id)));
                }
                4 => lists(&[6]),
                5 => next.push((6, lent.words[at + 1])),
                6 => {
                    for fin in entries(lent, 7, i) {
                        reached.meet(5, fin);
                    }
                    next.extend([0, 2].into_iter().filter_map(optional).map(|id| (7, id)));
                    next.extend(optional(4).map(|id| (8, id)));
                }
                _ => {}
            }
        }
        reached
    }

    /// Whether there is such a record; then it is reached.
    fn meet(&mut self, k: usize, id: u32) -> bool {
        let id = id as usize;
        let (least, most) = &mut self.counts[k];
        let record = self.records[k].get_mut(id);
        match record {
            Some(_) => *least = (*least).max(id + 1),
            None => *most = (*most).min(id),
        }
        record.is_some_and(|record| {
            *record = true;
            true
        })
    }
}
