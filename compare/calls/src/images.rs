//! The station's three calls about images, as a C program links them, and what is expected of them: which model lent memory holds, and what
//! the memory is after one was read into it. Nothing here is the station's; docs/IMAGE.md and the layout of `layout.rs` are all it goes by.

use std::ops::Range;

use gensolid_core::Version;

use crate::image::{Body, Carrier, Edge, Face, Fin, Kept, Loop, Region, Shell, Vertex, decode};
use crate::layout::{LISTS, Lent, VERSION};
use crate::ours::Room;

#[link(name = "station", kind = "static")]
unsafe extern "C" {
    fn brunskerl_image_length(
        room: Room,
        words: *const u32,
        n: usize,
        reals: *const f64,
        m: usize,
        length: *mut [usize; 1],
    ) -> u32;
    fn brunskerl_write_image(
        room: Room,
        words: *const u32,
        n: usize,
        reals: *const f64,
        m: usize,
        bytes: *mut u8,
        b: usize,
        length: *mut [usize; 1],
    ) -> u32;
    fn brunskerl_read_image(
        room: Room,
        words: *mut u32,
        n: usize,
        reals: *mut f64,
        m: usize,
        bytes: *const u8,
        b: usize,
    ) -> u32;
}

/// What a length's slot holds before a call; no image is as long.
pub const UNTOUCHED_LENGTH: usize = usize::MAX - 0xdead;

/// What a wrong station makes of a call, after it: of a length, of the bytes and the length that were written, of the memory behind a
/// reading. Each is given the memory before the call and the number, and gives the number that it answers.
#[derive(Clone, Copy)]
pub enum How {
    Length(fn(&Lent, u32, &mut usize) -> u32),
    Write(fn(&Lent, u32, &mut [u8], &mut usize) -> u32),
    Read(fn(&Lent, u32, &mut Lent, &[u8]) -> u32),
}

/// The station, or a wrong one.
#[derive(Clone, Copy)]
pub struct Station(pub Option<How>);

impl Station {
    /// The number, and what the length's slot holds then.
    pub fn length(self, lent: &Lent) -> (u32, usize) {
        let mut length = [UNTOUCHED_LENGTH];
        // SAFETY: the call reads the lent memory, writes the length and keeps no address.
        let mut number = unsafe {
            brunskerl_image_length(
                &lent.room,
                lent.words.as_ptr(),
                lent.words.len(),
                lent.reals.as_ptr(),
                lent.reals.len(),
                &mut length,
            )
        };
        if let Some(How::Length(wrong)) = self.0 {
            number = wrong(lent, number, &mut length[0]);
        }
        (number, length[0])
    }

    /// The same, and the image in the front of the bytes.
    pub fn write(self, lent: &Lent, bytes: &mut [u8]) -> (u32, usize) {
        let mut length = [UNTOUCHED_LENGTH];
        // SAFETY: as above, and it writes to the bytes.
        let mut number = unsafe {
            brunskerl_write_image(
                &lent.room,
                lent.words.as_ptr(),
                lent.words.len(),
                lent.reals.as_ptr(),
                lent.reals.len(),
                bytes.as_mut_ptr(),
                bytes.len(),
                &mut length,
            )
        };
        if let Some(How::Write(wrong)) = self.0 {
            number = wrong(lent, number, bytes, &mut length[0]);
        }
        (number, length[0])
    }

    pub fn read(self, lent: &mut Lent, bytes: &[u8]) -> u32 {
        let before = self.0.map(|_| lent.clone());
        // SAFETY: the call writes to the lent memory, reads the bytes, and keeps no address.
        let number = unsafe {
            brunskerl_read_image(
                &lent.room,
                lent.words.as_mut_ptr(),
                lent.words.len(),
                lent.reals.as_mut_ptr(),
                lent.reals.len(),
                bytes.as_ptr(),
                bytes.len(),
            )
        };
        match (self.0, before) {
            (Some(How::Read(wrong)), Some(before)) => wrong(&before, number, lent, bytes),
            _ => number,
        }
    }
}

/// What reading an image into this memory must give: the model that is there then, or the refusal.
pub fn expected(lent: &Lent, bytes: &[u8]) -> Result<Kept, u32> {
    if !lent.spacious() {
        return Err(9);
    }
    let kept = decode(bytes).map_err(|()| 9u32)?;
    if kept
        .used()
        .iter()
        .zip(lent.room)
        .any(|(&n, slots)| n > slots)
    {
        return Err(8);
    }
    Ok(kept)
}

/// Puts bytes over others, as far as there are some.
pub fn put(image: &mut [u8], at: usize, new: &[u8]) {
    image
        .iter_mut()
        .skip(at)
        .zip(new)
        .for_each(|(old, new)| *old = *new);
}

// ---- the model that memory holds

fn optional(words: &[u32]) -> Option<u32> {
    (words[0] != 0).then_some(words[1])
}

fn list(lent: &Lent, j: usize, i: usize) -> Vec<u32> {
    let (table, place, ..) = LISTS[j];
    let at = lent.word_at(table, i) + place;
    lent.words[at + 1..][..lent.words[at] as usize].to_vec()
}

fn floats<const N: usize>(lent: &Lent, k: usize, i: usize) -> [f64; N] {
    let at = lent.real_at(k, i);
    std::array::from_fn(|place| lent.reals[at + place])
}

fn carrier(lent: &Lent, k: usize, i: usize) -> Carrier {
    match lent.words[lent.word_at(k, i)] {
        0 => Carrier::Line(floats(lent, k, i)),
        1 => Carrier::Plane(floats(lent, k, i)),
        _ => Carrier::Other,
    }
}

impl Kept {
    /// The model that readable memory holds.
    pub fn of(lent: &Lent) -> Self {
        let used = |k: usize| 0..lent.words[k] as usize;
        let fields = |k: usize, i: usize| &lent.words[lent.word_at(k, i)..];
        let body = |i| Body {
            kind: fields(0, i)[0],
            office: fields(0, i)[1],
            regions: list(lent, 0, i),
        };
        let region = |i| Region {
            body: fields(1, i)[0],
            solid: fields(1, i)[1] != 0,
            shells: list(lent, 1, i),
        };
        let shell = |i| Shell {
            region: fields(2, i)[0],
            faces: list(lent, 2, i),
            wire_edges: list(lent, 3, i),
            acorn_vertices: list(lent, 4, i),
        };
        let face = |i| Face {
            front: optional(fields(3, i)),
            back: optional(&fields(3, i)[2..]),
            surface: optional(&fields(3, i)[4..]),
            negative: fields(3, i)[6] != 0,
            loops: list(lent, 5, i),
        };
        let round = |i| Loop {
            face: fields(4, i)[0],
            fins: list(lent, 6, i),
        };
        let fin = |i| Fin {
            owner: fields(5, i)[0],
            edge: fields(5, i)[1],
            negative: fields(5, i)[2] != 0,
            pcurve: fields(5, i)[3] != 0,
        };
        let edge = |i| {
            let [own] = floats(lent, 6, i);
            Edge {
                start: optional(fields(6, i)),
                end: optional(&fields(6, i)[2..]),
                curve: optional(&fields(6, i)[4..]),
                tolerance: (fields(6, i)[6] != 0).then_some(own),
                fins: list(lent, 7, i),
            }
        };
        let vertex = |i| {
            let [x, y, z, own] = floats(lent, 7, i);
            Vertex {
                point: [x, y, z],
                tolerance: (fields(7, i)[0] != 0).then_some(own),
            }
        };
        Self {
            version: if lent.words[VERSION] == 2 { Version::Second } else { Version::First },
            precision: lent.reals[0],
            bodies: used(0).map(body).collect(),
            regions: used(1).map(region).collect(),
            shells: used(2).map(shell).collect(),
            faces: used(3).map(face).collect(),
            loops: used(4).map(round).collect(),
            fins: used(5).map(fin).collect(),
            edges: used(6).map(edge).collect(),
            vertices: used(7).map(vertex).collect(),
            curves: used(8).map(|i| carrier(lent, 8, i)).collect(),
            surfaces: used(9).map(|i| carrier(lent, 9, i)).collect(),
        }
    }
}

// ---- memory with a model read into it

fn put_record(lent: &mut Lent, k: usize, i: usize, words: &[u32], reals: &[f64]) {
    let at = lent.word_at(k, i);
    lent.words[at..at + words.len()].copy_from_slice(words);
    let at = lent.real_at(k, i);
    lent.reals[at..at + reals.len()].copy_from_slice(reals);
}

fn put_list(lent: &mut Lent, j: usize, i: usize, list: &[u32]) {
    let (table, place, ..) = LISTS[j];
    let at = lent.word_at(table, i) + place;
    lent.words[at] = list.len() as u32;
    lent.words[at + 1..][..list.len()].copy_from_slice(list);
}

/// Three optional ids as words, with 0 for the id of none.
fn three(ids: [Option<u32>; 3]) -> [u32; 6] {
    let [a, b, c] = ids.map(|id| [id.is_some().into(), id.unwrap_or(0)]);
    [a[0], a[1], b[0], b[1], c[0], c[1]]
}

impl Kept {
    /// Lays the model over memory that has the slots for it: the counts, the version, the precision, of each record its fields, floats and lists. All
    /// else stays: what lies behind the lists' ends, and the slots that the model does not use.
    pub fn over(&self, lent: &mut Lent) {
        for (word, n) in lent.words.iter_mut().zip(self.used()) {
            *word = n as u32;
        }
        lent.words[VERSION] = self.version as u32;
        lent.reals[0] = self.precision;
        for (i, r) in self.bodies.iter().enumerate() {
            put_record(lent, 0, i, &[r.kind, r.office], &[]);
            put_list(lent, 0, i, &r.regions);
        }
        for (i, r) in self.regions.iter().enumerate() {
            put_record(lent, 1, i, &[r.body, r.solid.into()], &[]);
            put_list(lent, 1, i, &r.shells);
        }
        for (i, r) in self.shells.iter().enumerate() {
            put_record(lent, 2, i, &[r.region], &[]);
            put_list(lent, 2, i, &r.faces);
            put_list(lent, 3, i, &r.wire_edges);
            put_list(lent, 4, i, &r.acorn_vertices);
        }
        for (i, r) in self.faces.iter().enumerate() {
            let [a, b, c, d, e, f] = three([r.front, r.back, r.surface]);
            put_record(lent, 3, i, &[a, b, c, d, e, f, r.negative.into()], &[]);
            put_list(lent, 5, i, &r.loops);
        }
        for (i, r) in self.loops.iter().enumerate() {
            put_record(lent, 4, i, &[r.face], &[]);
            put_list(lent, 6, i, &r.fins);
        }
        for (i, r) in self.fins.iter().enumerate() {
            put_record(
                lent,
                5,
                i,
                &[r.owner, r.edge, r.negative.into(), r.pcurve.into()],
                &[],
            );
        }
        for (i, r) in self.edges.iter().enumerate() {
            let [a, b, c, d, e, f] = three([r.start, r.end, r.curve]);
            let own = r.tolerance;
            put_record(
                lent,
                6,
                i,
                &[a, b, c, d, e, f, own.is_some().into()],
                &[own.unwrap_or(0.0)],
            );
            put_list(lent, 7, i, &r.fins);
        }
        for (i, r) in self.vertices.iter().enumerate() {
            let [x, y, z] = r.point;
            let own = r.tolerance;
            put_record(
                lent,
                7,
                i,
                &[own.is_some().into()],
                &[x, y, z, own.unwrap_or(0.0)],
            );
        }
        for (k, carriers) in [(8, &self.curves), (9, &self.surfaces)] {
            for (i, r) in carriers.iter().enumerate() {
                let (tag, six) = match r {
                    Carrier::Line(six) => (0, six),
                    Carrier::Plane(six) => (1, six),
                    Carrier::Other => (2, &[0.0; 6]),
                };
                put_record(lent, k, i, &[tag], six);
            }
        }
    }
}

/// The floats that a model of so many records has in this memory; the precision stands apart.
fn written(lent: &Lent, used: [usize; 10]) -> [Range<usize>; 4] {
    [6, 7, 8, 9].map(|k| lent.real_at(k, 0)..lent.real_at(k, used[k]))
}

/// Whether memory is the same bit for bit.
pub fn same(a: &Lent, b: &Lent) -> bool {
    let apart = |apart: u64, (x, y): (&f64, &f64)| apart | (x.to_bits() ^ y.to_bits());
    a.room == b.room
        && a.words == b.words
        && a.reals.len() == b.reals.len()
        && a.reals.iter().zip(&b.reals).fold(0, apart) == 0
}

/// The same, where a NaN of the model of so many records may be any NaN.
pub fn same_model(expected: &Lent, given: &Lent, used: [usize; 10]) -> bool {
    if same(expected, given) {
        return true;
    }
    let of_model = written(expected, used);
    expected.room == given.room
        && expected.words == given.words
        && expected.reals.len() == given.reals.len()
        && (expected.reals.iter().zip(&given.reals).enumerate()).all(|(i, (x, y))| {
            let nan = x.is_nan() && y.is_nan() && of_model.iter().any(|range| range.contains(&i));
            nan || x.to_bits() == y.to_bits()
        })
}

/// The first place where they differ, for a reader of the output.
pub fn apart(expected: &Lent, given: &Lent) -> String {
    let words = expected.words.iter().zip(&given.words);
    if let Some((i, (x, y))) = words.enumerate().find(|(_, (x, y))| x != y) {
        return format!("word {i}: expected {x:#x}, ours {y:#x}");
    }
    let bits = |x: &f64| x.to_bits();
    let reals = expected
        .reals
        .iter()
        .map(bits)
        .zip(given.reals.iter().map(bits));
    match reals.enumerate().find(|(_, (x, y))| x != y) {
        Some((i, (x, y))) => format!("float {i}: expected {x:#x}, ours {y:#x}"),
        None => "the same".into(),
    }
}
