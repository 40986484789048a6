//! The image of a model: docs/IMAGE.md once more, from that page alone, with none of the station's code. `encode` makes the bytes of a
//! model, `decode` takes them back or refuses them.

use gensolid_core::Version;

/// How many records of each table an image has at most.
pub const MOST: [usize; 10] = [64, 128, 128, 512, 512, 4096, 2048, 2048, 2048, 512];

/// The marks: the precision's, then the tables' in their order.
pub const MARKS: [&[u8; 2]; 11] = [
    b"PR", b"BO", b"RE", b"SH", b"FA", b"LO", b"FI", b"ED", b"VE", b"CU", b"SU",
];

/// The second body mark, of the bodies of office 1; office 0's have the other (W-206).
pub const SECOND_BODY: &[u8; 2] = b"BP";

/// How many numbers stand before the floats and lists of a record, by table.
pub const NUMBERS: [usize; 10] = [1, 2, 1, 7, 1, 4, 7, 1, 1, 1];

/// The version's record, with which the image of a model of version 2 begins: its mark, and the number.
pub const VERSION_MARK: &[u8; 2] = b"VN";
pub const VERSION_RECORD: [u8; 6] = [0x56, 0x4e, 2, 0, 0, 0];

/// The bytes of the precision's record.
pub const FIRST: usize = 50;

/// Where the precision's record begins in bytes that may be an image.
pub fn begins(image: &[u8]) -> usize {
    if image.starts_with(VERSION_MARK) { VERSION_RECORD.len() } else { 0 }
}

/// All that is not a number, as it is written.
const NAN: u64 = 0x7ff8_0000_0000_0000;

#[derive(Clone, Debug)]
pub struct Body {
    /// 0 to 4.
    pub kind: u32,
    /// 0 or 1, which the mark alone says.
    pub office: u32,
    pub regions: Vec<u32>,
}

#[derive(Clone, Debug)]
pub struct Region {
    pub body: u32,
    pub solid: bool,
    pub shells: Vec<u32>,
}

#[derive(Clone, Debug)]
pub struct Shell {
    pub region: u32,
    pub faces: Vec<u32>,
    pub wire_edges: Vec<u32>,
    pub acorn_vertices: Vec<u32>,
}

#[derive(Clone, Debug)]
pub struct Face {
    pub front: Option<u32>,
    pub back: Option<u32>,
    pub surface: Option<u32>,
    pub negative: bool,
    pub loops: Vec<u32>,
}

#[derive(Clone, Debug)]
pub struct Loop {
    pub face: u32,
    pub fins: Vec<u32>,
}

#[derive(Clone, Debug)]
pub struct Fin {
    pub owner: u32,
    pub edge: u32,
    pub negative: bool,
    pub pcurve: bool,
}

#[derive(Clone, Debug)]
pub struct Edge {
    pub start: Option<u32>,
    pub end: Option<u32>,
    pub curve: Option<u32>,
    /// None where it is the session's.
    pub tolerance: Option<f64>,
    pub fins: Vec<u32>,
}

#[derive(Clone, Debug)]
pub struct Vertex {
    pub point: [f64; 3],
    pub tolerance: Option<f64>,
}

/// Origin, then direction or normal.
#[derive(Clone, Debug)]
pub enum Carrier {
    Line([f64; 6]),
    Plane([f64; 6]),
    Other,
}

/// A model as an image keeps it. Ids may name records that are not there.
#[derive(Clone, Debug, Default)]
pub struct Kept {
    pub version: Version,
    pub precision: f64,
    pub bodies: Vec<Body>,
    pub regions: Vec<Region>,
    pub shells: Vec<Shell>,
    pub faces: Vec<Face>,
    pub loops: Vec<Loop>,
    pub fins: Vec<Fin>,
    pub edges: Vec<Edge>,
    pub vertices: Vec<Vertex>,
    pub curves: Vec<Carrier>,
    pub surfaces: Vec<Carrier>,
}

impl Kept {
    /// How many records each table has.
    pub fn used(&self) -> [usize; 10] {
        [
            self.bodies.len(),
            self.regions.len(),
            self.shells.len(),
            self.faces.len(),
            self.loops.len(),
            self.fins.len(),
            self.edges.len(),
            self.vertices.len(),
            self.curves.len(),
            self.surfaces.len(),
        ]
    }

    /// How many bytes each record takes, by the page's table; the precision's takes `FIRST`.
    pub fn sizes(&self) -> [Vec<usize>; 10] {
        fn all<T>(records: &[T], least: usize, entries: fn(&T) -> usize) -> Vec<usize> {
            records.iter().map(|r| least + 4 * entries(r)).collect()
        }
        [
            all(&self.bodies, 10, |r| r.regions.len()),
            all(&self.regions, 14, |r| r.shells.len()),
            all(&self.shells, 18, |r| {
                r.faces.len() + r.wire_edges.len() + r.acorn_vertices.len()
            }),
            all(&self.faces, 34, |r| r.loops.len()),
            all(&self.loops, 10, |r| r.fins.len()),
            all(&self.fins, 18, |_| 0),
            all(&self.edges, 42, |r| r.fins.len()),
            all(&self.vertices, 38, |_| 0),
            all(&self.curves, 54, |_| 0),
            all(&self.surfaces, 54, |_| 0),
        ]
    }

    /// Where the tables begin in the image: behind the version's record, where there is one, and the precision's.
    pub fn front(&self) -> usize {
        match self.version {
            Version::First => FIRST,
            Version::Second => VERSION_RECORD.len() + FIRST,
        }
    }

    /// Where record i of table k begins in the image, or ends the one before it.
    pub fn place(&self, k: usize, i: usize) -> usize {
        let sizes = self.sizes();
        self.front() + sizes[..k].iter().flatten().sum::<usize>() + sizes[k][..i].iter().sum::<usize>()
    }
}

// ---- writing

#[derive(Default)]
struct Writer {
    bytes: Vec<u8>,
}

impl Writer {
    fn mark(&mut self, k: usize) {
        self.bytes.extend_from_slice(MARKS[k]);
    }

    fn number(&mut self, n: u32) {
        self.bytes.extend_from_slice(&n.to_le_bytes());
    }

    fn float(&mut self, x: f64) {
        let bits = if x.is_nan() { NAN } else { x.to_bits() };
        self.bytes.extend_from_slice(&bits.to_le_bytes());
    }

    fn optional(&mut self, id: Option<u32>) {
        self.number(id.is_some().into());
        self.number(id.unwrap_or(0));
    }

    fn list(&mut self, list: &[u32]) {
        self.number(list.len() as u32);
        list.iter().for_each(|&id| self.number(id));
    }

    fn body(&mut self, r: &Body) {
        if r.office == 0 {
            self.mark(1);
        } else {
            self.bytes.extend_from_slice(SECOND_BODY);
        }
        self.number(r.kind);
        self.list(&r.regions);
    }

    fn region(&mut self, r: &Region) {
        self.mark(2);
        self.number(r.body);
        self.number(r.solid.into());
        self.list(&r.shells);
    }

    fn shell(&mut self, r: &Shell) {
        self.mark(3);
        self.number(r.region);
        self.list(&r.faces);
        self.list(&r.wire_edges);
        self.list(&r.acorn_vertices);
    }

    fn face(&mut self, r: &Face) {
        self.mark(4);
        self.optional(r.front);
        self.optional(r.back);
        self.optional(r.surface);
        self.number(r.negative.into());
        self.list(&r.loops);
    }

    fn round(&mut self, r: &Loop) {
        self.mark(5);
        self.number(r.face);
        self.list(&r.fins);
    }

    fn fin(&mut self, r: &Fin) {
        self.mark(6);
        self.number(r.owner);
        self.number(r.edge);
        self.number(r.negative.into());
        self.number(r.pcurve.into());
    }

    fn edge(&mut self, r: &Edge) {
        self.mark(7);
        self.optional(r.start);
        self.optional(r.end);
        self.optional(r.curve);
        self.number(r.tolerance.is_some().into());
        self.float(r.tolerance.unwrap_or(0.0));
        self.list(&r.fins);
    }

    fn vertex(&mut self, r: &Vertex) {
        self.mark(8);
        self.number(r.tolerance.is_some().into());
        r.point.iter().for_each(|&x| self.float(x));
        self.float(r.tolerance.unwrap_or(0.0));
    }

    fn carrier(&mut self, mark: usize, r: &Carrier) {
        self.mark(mark);
        let (tag, six) = match r {
            Carrier::Line(six) => (0, *six),
            Carrier::Plane(six) => (1, *six),
            Carrier::Other => (2, [0.0; 6]),
        };
        self.number(tag);
        six.iter().for_each(|&x| self.float(x));
    }
}

/// The image of a model.
pub fn encode(kept: &Kept) -> Vec<u8> {
    let mut to = Writer::default();
    if kept.version == Version::Second {
        to.bytes.extend_from_slice(VERSION_MARK);
        to.number(2);
    }
    to.mark(0);
    kept.used().iter().for_each(|&n| to.number(n as u32));
    to.float(kept.precision);
    kept.bodies.iter().for_each(|r| to.body(r));
    kept.regions.iter().for_each(|r| to.region(r));
    kept.shells.iter().for_each(|r| to.shell(r));
    kept.faces.iter().for_each(|r| to.face(r));
    kept.loops.iter().for_each(|r| to.round(r));
    kept.fins.iter().for_each(|r| to.fin(r));
    kept.edges.iter().for_each(|r| to.edge(r));
    kept.vertices.iter().for_each(|r| to.vertex(r));
    kept.curves.iter().for_each(|r| to.carrier(9, r));
    kept.surfaces.iter().for_each(|r| to.carrier(10, r));
    to.bytes
}

// ---- reading: none is the refusal

struct Reader<'a> {
    left: &'a [u8],
}

impl Reader<'_> {
    fn take<const N: usize>(&mut self) -> Option<[u8; N]> {
        let (front, left) = self.left.split_first_chunk()?;
        self.left = left;
        Some(*front)
    }

    fn mark(&mut self, k: usize) -> Option<()> {
        (self.take()? == *MARKS[k]).then_some(())
    }

    fn number(&mut self) -> Option<u32> {
        self.take().map(u32::from_le_bytes)
    }

    /// A count or a tag.
    fn at_most(&mut self, most: usize) -> Option<u32> {
        self.number().filter(|&n| n as usize <= most)
    }

    fn yes(&mut self) -> Option<bool> {
        self.at_most(1).map(|tag| tag == 1)
    }

    fn float(&mut self) -> Option<f64> {
        let bits = u64::from_le_bytes(self.take()?);
        let x = f64::from_bits(bits);
        (!x.is_nan() || bits == NAN).then_some(x)
    }

    fn floats<const N: usize>(&mut self) -> Option<[f64; N]> {
        let mut floats = [0.0; N];
        for x in &mut floats {
            *x = self.float()?;
        }
        Some(floats)
    }

    /// A float of which the model says nothing.
    fn nothing(&mut self) -> Option<()> {
        (self.take()? == [0; 8]).then_some(())
    }

    fn tolerance(&mut self, own: bool) -> Option<Option<f64>> {
        if own {
            let t = self.float()?;
            (t.is_finite() && t >= 0.0).then_some(Some(t))
        } else {
            self.nothing().map(|()| None)
        }
    }

    fn optional(&mut self) -> Option<Option<u32>> {
        match (self.yes()?, self.number()?) {
            (true, id) => Some(Some(id)),
            (false, 0) => Some(None),
            (false, _) => None,
        }
    }

    fn list(&mut self, most: usize) -> Option<Vec<u32>> {
        let n = self.at_most(most)? as usize;
        let (entries, left) = self.left.split_at_checked(4 * n)?;
        self.left = left;
        let id = |entry: &[u8]| u32::from_le_bytes([entry[0], entry[1], entry[2], entry[3]]);
        Some(entries.chunks_exact(4).map(id).collect())
    }

    fn body(&mut self) -> Option<Body> {
        let office = match &self.take()? {
            mark if mark == MARKS[1] => 0,
            SECOND_BODY => 1,
            _ => return None,
        };
        Some(Body {
            office,
            kind: self.at_most(4)?,
            regions: self.list(16)?,
        })
    }

    fn region(&mut self) -> Option<Region> {
        self.mark(2)?;
        Some(Region {
            body: self.number()?,
            solid: self.yes()?,
            shells: self.list(16)?,
        })
    }

    fn shell(&mut self) -> Option<Shell> {
        self.mark(3)?;
        Some(Shell {
            region: self.number()?,
            faces: self.list(512)?,
            wire_edges: self.list(256)?,
            acorn_vertices: self.list(64)?,
        })
    }

    fn face(&mut self) -> Option<Face> {
        self.mark(4)?;
        Some(Face {
            front: self.optional()?,
            back: self.optional()?,
            surface: self.optional()?,
            negative: self.yes()?,
            loops: self.list(16)?,
        })
    }

    fn round(&mut self) -> Option<Loop> {
        self.mark(5)?;
        Some(Loop {
            face: self.number()?,
            fins: self.list(1024)?,
        })
    }

    fn fin(&mut self) -> Option<Fin> {
        self.mark(6)?;
        Some(Fin {
            owner: self.number()?,
            edge: self.number()?,
            negative: self.yes()?,
            pcurve: self.yes()?,
        })
    }

    fn edge(&mut self) -> Option<Edge> {
        self.mark(7)?;
        let (start, end, curve) = (self.optional()?, self.optional()?, self.optional()?);
        let own = self.yes()?;
        Some(Edge {
            start,
            end,
            curve,
            tolerance: self.tolerance(own)?,
            fins: self.list(8)?,
        })
    }

    fn vertex(&mut self) -> Option<Vertex> {
        self.mark(8)?;
        let own = self.yes()?;
        Some(Vertex {
            point: self.floats()?,
            tolerance: self.tolerance(own)?,
        })
    }

    fn carrier(&mut self, mark: usize) -> Option<Carrier> {
        self.mark(mark)?;
        match self.number()? {
            0 => self.floats().map(Carrier::Line),
            1 => self.floats().map(Carrier::Plane),
            2 => (0..6)
                .try_for_each(|_| self.nothing())
                .map(|()| Carrier::Other),
            _ => None,
        }
    }

    fn table<T>(&mut self, n: usize, record: fn(&mut Self) -> Option<T>) -> Option<Vec<T>> {
        (0..n).map(|_| record(self)).collect()
    }

    /// Version 1 where the image does not begin with a version's record, which names nothing but 2.
    fn version(&mut self) -> Option<Version> {
        if !self.left.starts_with(VERSION_MARK) {
            return Some(Version::First);
        }
        self.take::<2>()?;
        (self.number()? == 2).then_some(Version::Second)
    }

    fn model(&mut self) -> Option<Kept> {
        let version = self.version()?;
        self.mark(0)?;
        let mut n = [0; 10];
        for (n, most) in n.iter_mut().zip(MOST) {
            *n = self.at_most(most)? as usize;
        }
        let precision = self.float()?;
        if !precision.is_finite() || precision <= 0.0 {
            return None;
        }
        let kept = Kept {
            version,
            precision,
            bodies: self.table(n[0], Self::body)?,
            regions: self.table(n[1], Self::region)?,
            shells: self.table(n[2], Self::shell)?,
            faces: self.table(n[3], Self::face)?,
            loops: self.table(n[4], Self::round)?,
            fins: self.table(n[5], Self::fin)?,
            edges: self.table(n[6], Self::edge)?,
            vertices: self.table(n[7], Self::vertex)?,
            curves: self.table(n[8], |from| from.carrier(9))?,
            surfaces: self.table(n[9], |from| from.carrier(10))?,
        };
        self.left.is_empty().then_some(kept)
    }
}

/// The model of an image; the one refusal is 9.
#[allow(clippy::result_unit_err)]
pub fn decode(image: &[u8]) -> Result<Kept, ()> {
    Reader { left: image }.model().ok_or(())
}

#[cfg(test)]
mod tests {
    use super::*;

    /// The page's worked records: a body, and an edge.
    const WORKED_BODY: [u8; 18] = [
        0x42, 0x50, //
        0x03, 0x00, 0x00, 0x00, //
        0x02, 0x00, 0x00, 0x00, //
        0x07, 0x00, 0x00, 0x00, 0x02, 0x01, 0x00, 0x00,
    ];
    const WORKED: [u8; 50] = [
        0x45, 0x44, //
        0x01, 0x00, 0x00, 0x00, 0x03, 0x00, 0x00, 0x00, //
        0x00, 0x00, 0x00, 0x00, 0x00, 0x00, 0x00, 0x00, //
        0x01, 0x00, 0x00, 0x00, 0x02, 0x01, 0x00, 0x00, //
        0x01, 0x00, 0x00, 0x00, //
        0x00, 0x00, 0x00, 0x00, 0x00, 0x00, 0xe0, 0x3f, //
        0x02, 0x00, 0x00, 0x00, //
        0x01, 0x00, 0x00, 0x00, 0x02, 0x00, 0x00, 0x00,
    ];

    fn worked() -> Edge {
        Edge {
            start: Some(3),
            end: None,
            curve: Some(258),
            tolerance: Some(0.5),
            fins: vec![1, 2],
        }
    }

    /// One record of each table, with lists of one entry, and what is said of neither.
    fn small() -> Kept {
        Kept {
            version: Version::First,
            precision: 0.001,
            bodies: vec![Body {
                kind: 3,
                office: 0,
                regions: vec![0],
            }],
            regions: vec![Region {
                body: 0,
                solid: true,
                shells: vec![u32::MAX],
            }],
            shells: vec![Shell {
                region: 0,
                faces: vec![0],
                wire_edges: vec![7],
                acorn_vertices: vec![9],
            }],
            faces: vec![Face {
                front: None,
                back: Some(0),
                surface: Some(1),
                negative: true,
                loops: vec![0],
            }],
            loops: vec![Loop {
                face: 0,
                fins: vec![0],
            }],
            fins: vec![Fin {
                owner: 0,
                edge: 0,
                negative: true,
                pcurve: true,
            }],
            edges: vec![worked()],
            vertices: vec![Vertex {
                point: [-0.0, f64::NAN, f64::INFINITY],
                tolerance: None,
            }],
            curves: vec![Carrier::Line([5.0e-324; 6]), Carrier::Other],
            surfaces: vec![Carrier::Plane([-1.0; 6])],
        }
    }

    fn at(kept: &Kept, k: usize, i: usize) -> usize {
        kept.place(k, i)
    }

    fn put(image: &mut [u8], at: usize, bytes: &[u8]) {
        image[at..at + bytes.len()].copy_from_slice(bytes);
    }

    /// Whether the small image with these bytes in it is taken, and is then the image of what it is taken for.
    fn taken(place: usize, bytes: &[u8]) -> bool {
        let mut image = encode(&small());
        put(&mut image, place, bytes);
        let taken = decode(&image);
        if let Ok(kept) = &taken {
            assert_eq!(encode(kept), image);
        }
        taken.is_ok()
    }

    #[test]
    fn the_worked_body() {
        let worked = Body {
            kind: 3,
            office: 1,
            regions: vec![7, 258],
        };
        let mut to = Writer::default();
        to.body(&worked);
        assert_eq!(to.bytes, WORKED_BODY);
        let mut from = Reader { left: &WORKED_BODY };
        let body = from.body().expect("a body");
        assert!(from.left.is_empty());
        assert_eq!(format!("{body:?}"), format!("{worked:?}"));
    }

    #[test]
    fn the_worked_record() {
        let mut to = Writer::default();
        to.edge(&worked());
        assert_eq!(to.bytes, WORKED);
        let mut from = Reader { left: &WORKED };
        let edge = from.edge().expect("an edge");
        assert!(from.left.is_empty());
        assert_eq!(format!("{edge:?}"), format!("{:?}", worked()));
    }

    /// What is written takes the bytes that the page's table has.
    #[test]
    fn the_sizes() {
        type Write = fn(&mut Writer, &Kept);
        let writes: [(usize, Write); 10] = [
            (14, |to, kept| to.body(&kept.bodies[0])),
            (18, |to, kept| to.region(&kept.regions[0])),
            (30, |to, kept| to.shell(&kept.shells[0])),
            (38, |to, kept| to.face(&kept.faces[0])),
            (14, |to, kept| to.round(&kept.loops[0])),
            (18, |to, kept| to.fin(&kept.fins[0])),
            (50, |to, kept| to.edge(&kept.edges[0])),
            (38, |to, kept| to.vertex(&kept.vertices[0])),
            (54, |to, kept| to.carrier(9, &kept.curves[0])),
            (54, |to, kept| to.carrier(10, &kept.surfaces[0])),
        ];
        let kept = small();
        for (k, (size, write)) in writes.into_iter().enumerate() {
            let mut to = Writer::default();
            write(&mut to, &kept);
            assert_eq!(
                (to.bytes.len(), kept.sizes()[k][0]),
                (size, size),
                "table {k}"
            );
        }
        assert_eq!(encode(&kept).len(), kept.place(9, 1));
        let empty = Kept {
            precision: 1.0,
            ..Kept::default()
        };
        assert_eq!((encode(&empty).len(), empty.place(9, 0)), (50, 50));
        let empty = Kept {
            version: Version::Second,
            ..empty
        };
        assert_eq!((encode(&empty).len(), empty.place(9, 0)), (56, 56));
    }

    /// A model of version 2 has one more record, at the front; it names 2 and stands there alone.
    #[test]
    fn the_version() {
        let first = encode(&small());
        let kept = Kept {
            version: Version::Second,
            ..small()
        };
        let second = encode(&kept);
        assert_eq!(second, [&VERSION_RECORD[..], &first].concat());
        assert_eq!(second[at(&kept, 0, 0)..], first[at(&small(), 0, 0)..]);
        assert_eq!(decode(&first).expect("an image").version, Version::First);
        assert_eq!(decode(&second).expect("an image").version, Version::Second);
        for n in 0..second.len() {
            assert!(decode(&second[..n]).is_err(), "{n} bytes");
        }
        for number in [0, 1, 3, 258, 2 << 8, 2 << 24, 1 << 31, u32::MAX] {
            let record = [&VERSION_MARK[..], &u32::to_le_bytes(number)].concat();
            assert!(decode(&[&record[..], &first].concat()).is_err(), "{number}");
        }
        for n in 1..6 {
            assert!(decode(&[&VERSION_RECORD[..n], &first].concat()).is_err());
        }
        assert!(decode(&[&VERSION_RECORD[..], &second].concat()).is_err());
        for place in [FIRST, first.len()] {
            let (front, behind) = first.split_at(place);
            assert!(decode(&[front, &VERSION_RECORD, behind].concat()).is_err());
        }
        for mark in [b"NV", b"vn", b"VE", b"PR"] {
            assert!(decode(&[&mark[..], &second[2..]].concat()).is_err());
        }
    }

    /// The page's least and greatest lengths.
    #[test]
    fn lengths() {
        let sizes = [10, 14, 18, 34, 10, 18, 42, 38, 54, 54];
        let entries = [16, 16, 512 + 256 + 64, 16, 1024, 0, 8, 0, 0, 0];
        let tables: usize = (0..10).map(|k| MOST[k] * (sizes[k] + 4 * entries[k])).sum();
        assert_eq!(FIRST + tables, 3_036_850);
        assert_eq!(VERSION_RECORD.len() + FIRST + tables, 3_036_856);
    }

    #[test]
    fn what_is_written_is_read() {
        let image = encode(&small());
        let kept = decode(&image).expect("an image");
        assert_eq!(encode(&kept), image);
        assert_eq!(format!("{kept:?}"), format!("{:?}", small()));
        // Of each record its mark.
        for (k, mark) in MARKS.iter().enumerate().skip(1) {
            let from = at(&kept, k - 1, 0);
            assert_eq!(image[from..from + 2], **mark);
        }
    }

    #[test]
    fn short_and_long() {
        let image = encode(&small());
        for n in 0..image.len() {
            assert!(decode(&image[..n]).is_err(), "{n} bytes");
        }
        for more in [0, 0x50, 0xff] {
            assert!(decode(&[&image[..], &[more]].concat()).is_err());
        }
    }

    #[test]
    fn marks() {
        let kept = small();
        for k in 0..11 {
            let place = if k == 0 { 0 } else { at(&kept, k - 1, 0) };
            for other in MARKS {
                assert_eq!(taken(place, other), other == MARKS[k]);
            }
            assert_eq!(taken(place, SECOND_BODY), k == 1);
        }
    }

    /// A body of office 1 has the second body mark, and is as long and says the same besides; what has the first is office 0's.
    #[test]
    fn the_offices() {
        let first = encode(&small());
        let mut kept = small();
        kept.bodies[0].office = 1;
        let second = encode(&kept);
        assert_eq!(first[FIRST..FIRST + 2], *b"BO");
        assert_eq!(second[FIRST..FIRST + 2], *b"BP");
        assert_eq!(first[..FIRST], second[..FIRST]);
        assert_eq!(first[FIRST + 2..], second[FIRST + 2..]);
        for (image, office) in [(first, 0), (second, 1)] {
            let kept = decode(&image).expect("an image");
            assert_eq!(kept.bodies[0].office, office);
        }
        for mark in [b"BQ", b"BN", b"bP", b"PB", b"B\0", b"BR"] {
            assert!(!taken(FIRST, mark));
        }
    }

    #[test]
    fn tags() {
        let kept = small();
        let last = |place: usize, most: u32| {
            for tag in [most + 1, 256, 1 << 31, u32::MAX] {
                assert!(!taken(place, &tag.to_le_bytes()), "{tag} at {place}");
            }
        };
        for kind in 0..5u32 {
            assert!(taken(at(&kept, 0, 0) + 2, &kind.to_le_bytes()));
        }
        last(at(&kept, 0, 0) + 2, 4);
        last(at(&kept, 1, 0) + 6, 1);
        for place in [2, 10, 18, 26] {
            last(at(&kept, 3, 0) + place, 1);
            last(at(&kept, 6, 0) + place, 1);
        }
        last(at(&kept, 5, 0) + 10, 1);
        last(at(&kept, 5, 0) + 14, 1);
        last(at(&kept, 7, 0) + 2, 1);
        last(at(&kept, 8, 0) + 2, 2);
        last(at(&kept, 9, 0) + 2, 2);
        // A line for a plane and the other way round; what is other has no floats.
        assert!(taken(at(&kept, 8, 0) + 2, &[1]));
        assert!(taken(at(&kept, 9, 0) + 2, &[0]));
        assert!(!taken(at(&kept, 9, 0) + 2, &[2]));
    }

    #[test]
    fn none_and_nothing() {
        let kept = small();
        let face = at(&kept, 3, 0);
        assert!(!taken(face + 6, &[1]));
        assert!(!taken(face + 9, &[1]));
        assert!(taken(face + 2, &[1]));
        assert!(!taken(face + 18, &[0]));
        assert!(taken(face + 10, &[0]));
        let vertex = at(&kept, 7, 0);
        for wrong in [5.0e-324, -0.0, 1.0, f64::NAN] {
            assert!(!taken(vertex + 30, &wrong.to_le_bytes()));
            assert!(!taken(at(&kept, 8, 1) + 46, &wrong.to_le_bytes()));
        }
        assert!(taken(vertex + 2, &[1]));
    }

    #[test]
    fn floats() {
        let kept = small();
        let (edge, vertex) = (at(&kept, 6, 0), at(&kept, 7, 0));
        for (x, precision, tolerance) in [
            (1.0, true, true),
            (5.0e-324, true, true),
            (f64::MAX, true, true),
            (0.0, false, true),
            (-0.0, false, true),
            (-5.0e-324, false, false),
            (f64::INFINITY, false, false),
            (f64::NEG_INFINITY, false, false),
            (f64::from_bits(NAN), false, false),
        ] {
            assert_eq!(taken(42, &x.to_le_bytes()), precision, "{x}");
            assert_eq!(taken(edge + 30, &x.to_le_bytes()), tolerance, "{x}");
            assert!(taken(vertex + 6, &x.to_le_bytes()));
        }
        for other in [NAN + 1, NAN | 1 << 63, 0x7ff0_0000_0000_0001, u64::MAX] {
            assert!(!taken(vertex + 6, &other.to_le_bytes()));
            assert!(!taken(at(&kept, 8, 0) + 46, &other.to_le_bytes()));
            let mut kept = kept.clone();
            kept.vertices[0].point[0] = f64::from_bits(other);
            assert_eq!(encode(&kept)[vertex + 6..vertex + 14], NAN.to_le_bytes());
        }
    }

    /// Each list at its limit, and above it; each table too.
    #[test]
    fn limits() {
        type List = fn(&mut Kept) -> &mut Vec<u32>;
        let lists: [(usize, List); 8] = [
            (16, |kept| &mut kept.bodies[0].regions),
            (16, |kept| &mut kept.regions[0].shells),
            (512, |kept| &mut kept.shells[0].faces),
            (256, |kept| &mut kept.shells[0].wire_edges),
            (64, |kept| &mut kept.shells[0].acorn_vertices),
            (16, |kept| &mut kept.faces[0].loops),
            (1024, |kept| &mut kept.loops[0].fins),
            (8, |kept| &mut kept.edges[0].fins),
        ];
        for (most, list) in lists {
            let mut kept = small();
            *list(&mut kept) = vec![0x0101_0101; most];
            assert!(decode(&encode(&kept)).is_ok());
            list(&mut kept).push(0);
            assert!(decode(&encode(&kept)).is_err());
        }
        fn fill<T: Clone>(records: &mut Vec<T>, n: usize) {
            *records = vec![records[0].clone(); n];
        }
        for (k, most) in MOST.into_iter().enumerate() {
            for (n, expected) in [(most, true), (most + 1, false)] {
                let mut kept = small();
                match k {
                    0 => fill(&mut kept.bodies, n),
                    1 => fill(&mut kept.regions, n),
                    2 => fill(&mut kept.shells, n),
                    3 => fill(&mut kept.faces, n),
                    4 => fill(&mut kept.loops, n),
                    5 => fill(&mut kept.fins, n),
                    6 => fill(&mut kept.edges, n),
                    7 => fill(&mut kept.vertices, n),
                    8 => fill(&mut kept.curves, n),
                    _ => fill(&mut kept.surfaces, n),
                }
                let image = encode(&kept);
                assert_eq!(decode(&image).is_ok(), expected, "table {k}");
            }
            // One record fewer or more than there are.
            let n = small().used()[k] as u32;
            assert!(!taken(2 + 4 * k, &(n - 1).to_le_bytes()));
            assert!(!taken(2 + 4 * k, &(n + 1).to_le_bytes()));
        }
    }
}
