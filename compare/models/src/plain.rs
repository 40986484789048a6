//! A model as plain records, with slot numbers for ids; as a term over `meaning`'s records (by the
//! positions of Shown.txt); and as plain numbers.

use std::fmt::Display;

pub use gensolid_core::Version;

pub type Triple = [f64; 3];

#[derive(Clone, Copy, Debug, PartialEq)]
pub enum Kind {
    Acorn,
    Wire,
    Sheet,
    Solid,
    General,
}

#[derive(Clone, Debug)]
pub struct Body {
    pub kind: Kind,
    /// 0 or 1 (W-206).
    pub office: u32,
    pub regions: Vec<usize>,
}

#[derive(Clone, Debug)]
pub struct Region {
    pub body: usize,
    pub solid: bool,
    pub shells: Vec<usize>,
}

#[derive(Clone, Debug)]
pub struct Shell {
    pub region: usize,
    pub faces: Vec<usize>,
    pub wire_edges: Vec<usize>,
    pub acorn_vertices: Vec<usize>,
}

#[derive(Clone, Debug)]
pub struct Face {
    pub front: Option<usize>,
    pub back: Option<usize>,
    pub loops: Vec<usize>,
    pub surface: Option<usize>,
    pub positive: bool,
}

#[derive(Clone, Debug)]
pub struct Loop {
    pub face: usize,
    pub fins: Vec<usize>,
}

#[derive(Clone, Debug)]
pub struct Fin {
    pub owner: usize,
    pub edge: usize,
    pub positive: bool,
    pub pcurve: bool,
}

#[derive(Clone, Debug)]
pub struct Edge {
    pub fins: Vec<usize>,
    pub start: Option<usize>,
    pub end: Option<usize>,
    pub curve: Option<usize>,
    pub tolerance: Option<f64>,
}

#[derive(Clone, Debug)]
pub struct Vertex {
    pub point: Triple,
    pub tolerance: Option<f64>,
}

/// A line with origin and direction, a plane with origin and normal, or what 01 calls "other".
#[derive(Clone, Copy, Debug, PartialEq)]
pub enum Carrier {
    Line(Triple, Triple),
    Plane(Triple, Triple),
    Other,
}

#[derive(Clone, Debug, Default)]
pub struct Plain {
    pub version: Version,
    pub precision: f64,
    pub bodies: Vec<Body>,
    pub regions: Vec<Region>,
    pub shells: Vec<Shell>,
    pub faces: Vec<Face>,
    pub loops: Vec<Loop>,
    pub fins: Vec<Fin>,
    pub edges: Vec<Edge>,
    pub vertices: Vec<Vertex>,
    pub curves: Vec<Carrier>,
    pub surfaces: Vec<Carrier>,
}

/// The bits of a float. Every NaN counts as the same, and has the bits that `to_bits` of Float.Ieee gives.
pub fn bits(x: f64) -> u64 {
    if x.is_nan() {
        0x7ff8_0000_0000_0000
    } else {
        x.to_bits()
    }
}

impl Plain {
    /// How many records each table has, in 01's order.
    pub fn used(&self) -> [usize; 10] {
        [
            self.bodies.len(),
            self.regions.len(),
            self.shells.len(),
            self.faces.len(),
            self.loops.len(),
            self.fins.len(),
            self.edges.len(),
            self.vertices.len(),
            self.curves.len(),
            self.surfaces.len(),
        ]
    }

    /// The office of each body (W-206).
    pub fn offices(&self) -> Vec<u32> {
        self.bodies.iter().map(|r| r.office).collect()
    }

    /// The model with these offices of its bodies: the Rust has none, and what is read from it is office 0's until it is said.
    pub fn of(mut self, offices: &[u32]) -> Self {
        for (r, &office) in self.bodies.iter_mut().zip(offices) {
            r.office = office;
        }
        self
    }

    /// Every id that is stored, with the number of its table.
    pub fn ids(&mut self, mut visit: impl FnMut(usize, &mut usize)) {
        let mut each = |class: usize, ids: &mut dyn Iterator<Item = &mut usize>| {
            ids.for_each(|id| visit(class, id));
        };
        for r in &mut self.bodies {
            each(1, &mut r.regions.iter_mut());
        }
        for r in &mut self.regions {
            each(0, &mut [&mut r.body].into_iter());
            each(2, &mut r.shells.iter_mut());
        }
        for r in &mut self.shells {
            each(1, &mut [&mut r.region].into_iter());
            each(3, &mut r.faces.iter_mut());
            each(6, &mut r.wire_edges.iter_mut());
            each(7, &mut r.acorn_vertices.iter_mut());
        }
        for r in &mut self.faces {
            each(2, &mut r.front.iter_mut().chain(&mut r.back));
            each(4, &mut r.loops.iter_mut());
            each(9, &mut r.surface.iter_mut());
        }
        for r in &mut self.loops {
            each(3, &mut [&mut r.face].into_iter());
            each(5, &mut r.fins.iter_mut());
        }
        for r in &mut self.fins {
            each(4, &mut [&mut r.owner].into_iter());
            each(6, &mut [&mut r.edge].into_iter());
        }
        for r in &mut self.edges {
            each(5, &mut r.fins.iter_mut());
            each(7, &mut r.start.iter_mut().chain(&mut r.end));
            each(8, &mut r.curve.iter_mut());
        }
    }
}

// ---- as a term

pub fn list<T: Display>(entries: impl IntoIterator<Item = T>) -> String {
    let mut out = String::from("(");
    for entry in entries {
        out += &format!("{entry} ∷ ");
    }
    out + "[])"
}

fn float(x: f64) -> String {
    format!("0x{:x}", bits(x))
}

fn three(p: Triple) -> String {
    p.map(float).join(" ")
}

fn option(id: Option<usize>) -> String {
    id.map_or("none".into(), |id| format!("(some {id})"))
}

fn sense(positive: bool) -> &'static str {
    if positive { "positive" } else { "negative" }
}

fn own(tolerance: Option<f64>) -> String {
    tolerance.map_or("Session".into(), |t| format!("(own {})", float(t)))
}

fn carrier(carrier: &Carrier) -> String {
    match carrier {
        Carrier::Line(o, d) => format!("line_r (at {}) {}", three(*o), three(*d)),
        Carrier::Plane(o, n) => format!("plane_r (at {}) {}", three(*o), three(*n)),
        Carrier::Other => "other_r".into(),
    }
}

fn table<T>(records: &[T], term: impl Fn(&T) -> String) -> String {
    let lines: String = records
        .iter()
        .map(|r| format!("{}\n    ∷ ", term(r)))
        .collect();
    format!("\n    ({lines}[])")
}

impl Kind {
    pub const ALL: [Self; 5] = [
        Self::Acorn,
        Self::Wire,
        Self::Sheet,
        Self::Solid,
        Self::General,
    ];

    fn name(self) -> &'static str {
        ["acorn", "wire", "sheet", "solid", "general"][self as usize]
    }
}

impl Plain {
    pub fn term(&self) -> String {
        [
            format!("model_r {:?} {}", self.version, float(self.precision)),
            table(&self.bodies, |r| {
                let kind = r.kind.name();
                format!("body_r {kind} office-{} {}", r.office, list(&r.regions))
            }),
            table(&self.regions, |r| {
                format!("region_r {} {} {}", r.body, r.solid, list(&r.shells))
            }),
            table(&self.shells, |r| {
                let [faces, wires, acorns] = [&r.faces, &r.wire_edges, &r.acorn_vertices].map(list);
                format!("shell_r {} {faces} {wires} {acorns}", r.region)
            }),
            table(&self.faces, |r| {
                let [front, back, surface] = [r.front, r.back, r.surface].map(option);
                let loops = list(&r.loops);
                format!(
                    "face_r {front} {back} {loops} {surface} {}",
                    sense(r.positive)
                )
            }),
            table(&self.loops, |r| {
                format!("loop_r {} {}", r.face, list(&r.fins))
            }),
            table(&self.fins, |r| {
                format!(
                    "fin_r {} {} {} {}",
                    r.owner,
                    r.edge,
                    sense(r.positive),
                    r.pcurve
                )
            }),
            table(&self.edges, |r| {
                let [start, end, curve] = [r.start, r.end, r.curve].map(option);
                let fins = list(&r.fins);
                format!("edge_r {fins} {start} {end} {curve} {}", own(r.tolerance))
            }),
            table(&self.vertices, |r| {
                format!("vertex_r (at {}) {}", three(r.point), own(r.tolerance))
            }),
            table(&self.curves, carrier),
            table(&self.surfaces, carrier),
        ]
        .concat()
    }
}

// ---- as numbers: an optional id is 0 or the id's successor, a list stands behind its length

fn counted(list: &[usize]) -> Vec<u64> {
    [list.len()]
        .iter()
        .chain(list)
        .map(|&id| id as u64)
        .collect()
}

pub fn optional(id: Option<usize>) -> u64 {
    id.map_or(0, |id| id as u64 + 1)
}

fn tolerance_numbers(tolerance: Option<f64>) -> Vec<u64> {
    tolerance.map_or(vec![0], |t| vec![1, bits(t)])
}

fn carrier_numbers(carrier: &Carrier) -> Vec<u64> {
    let six = |tag: u64, o: &Triple, d: &Triple| {
        let floats = o.iter().chain(d).map(|&x| bits(x));
        [tag].into_iter().chain(floats).collect()
    };
    match carrier {
        Carrier::Line(o, d) => six(1, o, d),
        Carrier::Plane(o, n) => six(2, o, n),
        Carrier::Other => vec![3],
    }
}

fn rows<T>(records: &[T], numbers: impl Fn(&T) -> Vec<u64>) -> Vec<Vec<u64>> {
    records.iter().map(numbers).collect()
}

impl Plain {
    /// All tables, record by record, as Shown.txt's `tables` has them.
    pub fn numbers(&self) -> Vec<Vec<Vec<u64>>> {
        vec![
            vec![vec![self.version as u64, bits(self.precision)]],
            rows(&self.bodies, |r| {
                let fields = vec![r.kind as u64, r.office.into()];
                [fields, counted(&r.regions)].concat()
            }),
            rows(&self.regions, |r| {
                [vec![r.body as u64, r.solid.into()], counted(&r.shells)].concat()
            }),
            rows(&self.shells, |r| {
                [
                    vec![r.region as u64],
                    counted(&r.faces),
                    counted(&r.wire_edges),
                    counted(&r.acorn_vertices),
                ]
                .concat()
            }),
            rows(&self.faces, |r| {
                let [front, back, surface] = [r.front, r.back, r.surface].map(optional);
                [
                    vec![front, back, surface, r.positive.into()],
                    counted(&r.loops),
                ]
                .concat()
            }),
            rows(&self.loops, |r| {
                [vec![r.face as u64], counted(&r.fins)].concat()
            }),
            rows(&self.fins, |r| {
                vec![
                    r.owner as u64,
                    r.edge as u64,
                    r.positive.into(),
                    r.pcurve.into(),
                ]
            }),
            rows(&self.edges, |r| {
                let ids = [r.start, r.end, r.curve].map(optional).to_vec();
                [ids, counted(&r.fins), tolerance_numbers(r.tolerance)].concat()
            }),
            rows(&self.vertices, |r| {
                let point = r.point.map(bits).to_vec();
                [point, tolerance_numbers(r.tolerance)].concat()
            }),
            rows(&self.curves, carrier_numbers),
            rows(&self.surfaces, carrier_numbers),
        ]
    }
}
