//! The station's calls, as a C program links them, and a model read back through them alone.

use models::plain::{
    Body, Carrier, Edge, Face, Fin, Kind, Loop, Plain, Region, Shell, Triple, Version, Vertex,
};

use crate::layout::Lent;

pub type Room = *const [usize; 10];

#[link(name = "station", kind = "static")]
unsafe extern "C" {
    fn brunskerl_make(
        room: Room,
        words: *mut u32,
        n: usize,
        reals: *mut f64,
        m: usize,
        precision: f64,
        version: u32,
    ) -> u32;
    fn brunskerl_body(
        room: Room,
        words: *const u32,
        n: usize,
        reals: *const f64,
        m: usize,
        office: u32,
        id: usize,
        value: *mut [u32; 2],
    ) -> u32;
    fn brunskerl_list_entry(
        room: Room,
        words: *const u32,
        n: usize,
        reals: *const f64,
        m: usize,
        office: u32,
        j: usize,
        i: usize,
        place: usize,
        entry: *mut [u32; 1],
    ) -> u32;
    fn brunskerl_precision(
        room: Room,
        words: *const u32,
        n: usize,
        reals: *const f64,
        m: usize,
        value: *mut [f64; 1],
    ) -> u32;
    fn brunskerl_version(
        room: Room,
        words: *const u32,
        n: usize,
        reals: *const f64,
        m: usize,
        value: *mut [u32; 1],
    ) -> u32;
}

/// The lookups: one that gives words alone, and one that gives floats too.
macro_rules! lookups {
    ($($name:ident = $call:ident, $words:literal;)*; $($real:ident = $asked:ident, $ws:literal, $floats:literal;)*) => {
        #[link(name = "station", kind = "static")]
        unsafe extern "C" {
            $(fn $call(
                room: Room,
                words: *const u32,
                n: usize,
                reals: *const f64,
                m: usize,
                id: usize,
                value: *mut [u32; $words],
            ) -> u32;)*
            $(fn $asked(
                room: Room,
                words: *const u32,
                n: usize,
                reals: *const f64,
                m: usize,
                id: usize,
                value: *mut [u32; $ws],
                floats: *mut [f64; $floats],
            ) -> u32;)*
        }

        impl Lent {
            $(fn $name(&self, id: usize) -> Result<[u32; $words], u32> {
                let mut value = [UNTOUCHED; $words];
                // SAFETY: the call reads the lent memory, writes the value and keeps no address.
                let number = unsafe {
                    $call(
                        &self.room,
                        self.words.as_ptr(),
                        self.words.len(),
                        self.reals.as_ptr(),
                        self.reals.len(),
                        id,
                        &mut value,
                    )
                };
                answer(number, value, value == [UNTOUCHED; $words])
            })*
            $(fn $real(&self, id: usize) -> Result<([u32; $ws], [f64; $floats]), u32> {
                let mut value = [UNTOUCHED; $ws];
                let mut floats = [UNTOUCHED_REAL; $floats];
                // SAFETY: as above.
                let number = unsafe {
                    $asked(
                        &self.room,
                        self.words.as_ptr(),
                        self.words.len(),
                        self.reals.as_ptr(),
                        self.reals.len(),
                        id,
                        &mut value,
                        &mut floats,
                    )
                };
                let untouched = value == [UNTOUCHED; $ws] && floats == [UNTOUCHED_REAL; $floats];
                answer(number, (value, floats), untouched)
            })*
        }
    };
}

/// What the slots hold before a call; no answer of the runs has it.
pub const UNTOUCHED: u32 = 0xdead_beef;
pub const UNTOUCHED_REAL: f64 = -1.2345e-210;

/// Not a number of 01: a refused call has written into its slots.
pub const WROTE: u32 = 1000;

/// Nor this: an insert has given another id than the next.
pub const WRONG_ID: u32 = 1001;

/// Nor this: a version that is none was given.
pub const WRONG_VERSION: u32 = 1002;

/// Nor this: both offices were told a body.
pub const BOTH_OFFICES: u32 = 1003;

/// The value, or the refusal's number where the slots are as they were.
pub fn answer<T>(number: u32, value: T, untouched: bool) -> Result<T, u32> {
    match (number, untouched) {
        (0, _) => Ok(value),
        (_, true) => Err(number),
        (_, false) => Err(WROTE),
    }
}

lookups! {
    region_value = brunskerl_region, 3;
    shell_value = brunskerl_shell, 4;
    face_value = brunskerl_face, 8;
    loop_value = brunskerl_loop, 2;
    fin_value = brunskerl_fin, 4;
    ;
    edge_value = brunskerl_edge, 8, 1;
    vertex_value = brunskerl_vertex, 1, 4;
    curve_value = brunskerl_curve, 1, 6;
    surface_value = brunskerl_surface, 1, 6;
}

fn optional(tag: u32, id: u32) -> Option<usize> {
    (tag != 0).then_some(id as usize)
}

fn carrier((tag, [a, b, c, d, e, f]): ([u32; 1], [f64; 6])) -> Carrier {
    let (o, way): (Triple, Triple) = ([a, b, c], [d, e, f]);
    match tag[0] {
        0 => Carrier::Line(o, way),
        1 => Carrier::Plane(o, way),
        _ => Carrier::Other,
    }
}

/// Every record from 0 on, until the call says that there is none.
fn all<T>(mut lookup: impl FnMut(usize) -> Result<T, u32>) -> Result<Vec<T>, u32> {
    let mut records = Vec::new();
    loop {
        match lookup(records.len()) {
            Ok(record) => records.push(record),
            Err(2) => return Ok(records),
            Err(number) => return Err(number),
        }
    }
}

impl Lent {
    pub fn make(&mut self, precision: f64, version: u32) -> u32 {
        // SAFETY: the call writes to the lent memory alone and keeps no address.
        unsafe {
            brunskerl_make(
                &self.room,
                self.words.as_mut_ptr(),
                self.words.len(),
                self.reals.as_mut_ptr(),
                self.reals.len(),
                precision,
                version,
            )
        }
    }

    pub fn precision(&self) -> Result<f64, u32> {
        let mut value = [UNTOUCHED_REAL; 1];
        // SAFETY: as above, and it writes the value.
        let number = unsafe {
            brunskerl_precision(
                &self.room,
                self.words.as_ptr(),
                self.words.len(),
                self.reals.as_ptr(),
                self.reals.len(),
                &mut value,
            )
        };
        answer(number, value[0], value == [UNTOUCHED_REAL; 1])
    }

    pub fn version(&self) -> Result<u32, u32> {
        let mut value = [UNTOUCHED; 1];
        // SAFETY: as above.
        let number = unsafe {
            brunskerl_version(
                &self.room,
                self.words.as_ptr(),
                self.words.len(),
                self.reals.as_ptr(),
                self.reals.len(),
                &mut value,
            )
        };
        answer(number, value[0], value == [UNTOUCHED; 1])
    }

    /// Kind and number of regions, as the office is told them.
    pub fn body_value(&self, office: u32, id: usize) -> Result<[u32; 2], u32> {
        let mut value = [UNTOUCHED; 2];
        // SAFETY: as above.
        let number = unsafe {
            brunskerl_body(
                &self.room,
                self.words.as_ptr(),
                self.words.len(),
                self.reals.as_ptr(),
                self.reals.len(),
                office,
                id,
                &mut value,
            )
        };
        answer(number, value, value == [UNTOUCHED; 2])
    }

    pub fn entry(&self, j: usize, i: usize, place: usize) -> Result<u32, u32> {
        self.entry_by(self.office, j, i, place)
    }

    fn entry_by(&self, office: u32, j: usize, i: usize, place: usize) -> Result<u32, u32> {
        let mut value = [UNTOUCHED; 1];
        // SAFETY: as above.
        let number = unsafe {
            brunskerl_list_entry(
                &self.room,
                self.words.as_ptr(),
                self.words.len(),
                self.reals.as_ptr(),
                self.reals.len(),
                office,
                j,
                i,
                place,
                &mut value,
            )
        };
        answer(number, value[0], value == [UNTOUCHED; 1])
    }

    /// A list as its length and the lookup of each entry; the next place must not be there.
    fn list(&self, j: usize, i: usize, n: u32) -> Result<Vec<usize>, u32> {
        self.list_by(self.office, j, i, n)
    }

    fn list_by(&self, office: u32, j: usize, i: usize, n: u32) -> Result<Vec<usize>, u32> {
        let mut list = Vec::new();
        for place in 0..n as usize {
            list.push(self.entry_by(office, j, i, place)? as usize);
        }
        match self.entry_by(office, j, i, n as usize) {
            Err(1) => Ok(list),
            Err(number) => Err(number),
            Ok(_) => Err(WROTE),
        }
    }

    /// The refusals of lookups, for each table, of a record.
    pub fn refusals(&self, id: usize) -> [u32; 10] {
        fn number<T>(answer: Result<T, u32>) -> u32 {
            answer.err().unwrap_or(0)
        }
        [
            number(self.body_value(self.office, id)),
            number(self.region_value(id)),
            number(self.shell_value(id)),
            number(self.face_value(id)),
            number(self.loop_value(id)),
            number(self.fin_value(id)),
            number(self.edge_value(id)),
            number(self.vertex_value(id)),
            number(self.curve_value(id)),
            number(self.surface_value(id)),
        ]
    }

    /// A body by the office that is told it: the other must be told that there is none.
    fn owned(&self, id: usize) -> Result<(u32, [u32; 2]), u32> {
        match [0, 1].map(|office| self.body_value(office, id)) {
            [Ok(value), Err(2)] => Ok((0, value)),
            [Err(2), Ok(value)] => Ok((1, value)),
            [Err(number), Err(_)] | [Ok(_), Err(number)] | [Err(number), Ok(_)] => Err(number),
            [Ok(_), Ok(_)] => Err(BOTH_OFFICES),
        }
    }

    /// All tables, by the calls alone; or the first refusal that is not expected.
    pub fn read(&self) -> Result<Plain, u32> {
        Ok(Plain {
            version: match self.version()? {
                1 => Version::First,
                2 => Version::Second,
                _ => return Err(WRONG_VERSION),
            },
            precision: self.precision()?,
            bodies: all(|i| {
                let (office, [kind, n]) = self.owned(i)?;
                Ok(Body {
                    kind: Kind::ALL[kind as usize],
                    office,
                    regions: self.list_by(office, 0, i, n)?,
                })
            })?,
            regions: all(|i| {
                let [body, solid, n] = self.region_value(i)?;
                Ok(Region {
                    body: body as usize,
                    solid: solid != 0,
                    shells: self.list(1, i, n)?,
                })
            })?,
            shells: all(|i| {
                let [region, faces, wires, acorns] = self.shell_value(i)?;
                Ok(Shell {
                    region: region as usize,
                    faces: self.list(2, i, faces)?,
                    wire_edges: self.list(3, i, wires)?,
                    acorn_vertices: self.list(4, i, acorns)?,
                })
            })?,
            faces: all(|i| {
                let [a, front, b, back, c, surface, sense, n] = self.face_value(i)?;
                Ok(Face {
                    front: optional(a, front),
                    back: optional(b, back),
                    surface: optional(c, surface),
                    positive: sense == 0,
                    loops: self.list(5, i, n)?,
                })
            })?,
            loops: all(|i| {
                let [face, n] = self.loop_value(i)?;
                Ok(Loop {
                    face: face as usize,
                    fins: self.list(6, i, n)?,
                })
            })?,
            fins: all(|i| {
                let [owner, edge, sense, pcurve] = self.fin_value(i)?;
                Ok(Fin {
                    owner: owner as usize,
                    edge: edge as usize,
                    positive: sense == 0,
                    pcurve: pcurve != 0,
                })
            })?,
            edges: all(|i| {
                let ([a, start, b, end, c, curve, own, n], [t]) = self.edge_value(i)?;
                Ok(Edge {
                    start: optional(a, start),
                    end: optional(b, end),
                    curve: optional(c, curve),
                    tolerance: (own != 0).then_some(t),
                    fins: self.list(7, i, n)?,
                })
            })?,
            vertices: all(|i| {
                let ([own], [x, y, z, t]) = self.vertex_value(i)?;
                Ok(Vertex {
                    point: [x, y, z],
                    tolerance: (own != 0).then_some(t),
                })
            })?,
            curves: all(|i| Ok(carrier(self.curve_value(i)?)))?,
            surfaces: all(|i| Ok(carrier(self.surface_value(i)?)))?,
        })
    }
}
