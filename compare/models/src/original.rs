//! The Rust's side: a plain model built into its `Model`, read back from it, and asked.

use std::ops::Index;

use gensolid_check::{CheckOptions, Fault, FaultKind, Report, check_body};
pub use gensolid_core::versions::{Rule, by, ruled, version};
use gensolid_core::{Arena, Error, Id, Precision, Result, Tolerance, effective_tolerance};
use gensolid_geom::{BCurve, Circle, Curve, Line, ParamRange, Plane, Sphere, Surface};
pub use gensolid_math::exact::published;
use gensolid_math::{Frame, Interval, Point3, Sign, Vec3};
use gensolid_topo::intervals::{dot, vector};
use gensolid_topo::{
    Body, BodyId, BodyKind, Edge, EntityRef, Face, Fin, FinGeometry, Loop, Model, Region, Sense,
    Shell, Vertex, VertexId, body_bounding_box, body_volume, edge_parameter_bounds,
    split_line_edge,
};

use crate::plain::{self, Carrier, Kind, Plain, Triple, bits, optional};

/// More ids of each class than a model has records. They come from arenas of their own, so that a
/// model can be given ids of records that it lacks.
pub struct Names {
    pub bodies: Ids<Body>,
    pub regions: Ids<Region>,
    pub shells: Ids<Shell>,
    pub faces: Ids<Face>,
    pub loops: Ids<Loop>,
    pub fins: Ids<Fin>,
    pub edges: Ids<Edge>,
    pub vertices: Ids<Vertex>,
    pub curves: Ids<Curve>,
    pub surfaces: Ids<Surface>,
}

/// The slots of an arena that ids are of by their number. No model has as many records.
const SLOTS: usize = 4200;

/// Numbers above every table. The Rust makes no ids of slots so high without as many records; ids of
/// the slots from `SLOTS` on stand for them.
pub const STRAYS: [usize; 7] = [
    SLOTS,
    65_535,
    1 << 24,
    (1 << 29) - 1,
    1 << 29,
    1 << 31,
    u32::MAX as usize,
];

/// The ids of a class, by number.
pub struct Ids<T>(Vec<Id<T>>);

impl<T> Index<usize> for Ids<T> {
    type Output = Id<T>;

    fn index(&self, id: usize) -> &Id<T> {
        if id < SLOTS {
            return &self.0[id];
        }
        let stray = STRAYS.iter().position(|&stray| stray == id);
        &self.0[SLOTS + stray.expect("a number that an id stands for")]
    }
}

fn ids<T: Clone>(record: T) -> Ids<T> {
    let mut arena = Arena::new();
    let ids =
        (0..SLOTS + STRAYS.len()).map(|_| arena.insert(record.clone()).expect("an arena has room"));
    Ids(ids.collect())
}

pub fn pick<T>(names: &Ids<T>, list: &[usize]) -> Vec<Id<T>> {
    list.iter().map(|&id| names[id]).collect()
}

fn slots<T>(list: &[Id<T>]) -> Vec<usize> {
    list.iter().copied().map(slot).collect()
}

pub fn slot<T>(id: Id<T>) -> usize {
    let index = id.index() as usize;
    if index < SLOTS {
        index
    } else {
        STRAYS[index - SLOTS]
    }
}

pub fn point([x, y, z]: Triple) -> Point3 {
    Point3::new(x, y, z)
}

fn direction([x, y, z]: Triple) -> Vec3 {
    Vec3::new(x, y, z)
}

pub fn sense(positive: bool) -> Sense {
    if positive {
        Sense::Positive
    } else {
        Sense::Negative
    }
}

pub const KINDS: [(Kind, BodyKind); 5] = [
    (Kind::Acorn, BodyKind::Acorn),
    (Kind::Wire, BodyKind::Wire),
    (Kind::Sheet, BodyKind::Sheet),
    (Kind::Solid, BodyKind::Solid),
    (Kind::General, BodyKind::General),
];

impl Names {
    pub fn new() -> Self {
        let bodies = ids(Body {
            kind: BodyKind::Acorn,
            regions: vec![],
        });
        let regions = ids(Region {
            body: bodies[0],
            solid: false,
            shells: vec![],
        });
        let shells = ids(Shell {
            region: regions[0],
            faces: vec![],
            wire_edges: vec![],
            acorn_vertices: vec![],
        });
        let faces = ids(Face {
            front: None,
            back: None,
            loops: vec![],
            surface: None,
            sense: Sense::Positive,
        });
        let loops = ids(Loop {
            face: faces[0],
            fins: vec![],
        });
        let edges = ids(Edge {
            fins: vec![],
            start: None,
            end: None,
            curve: None,
            tolerance: None,
        });
        let fins = ids(Fin {
            owner: loops[0],
            edge: edges[0],
            sense: Sense::Positive,
        });
        let vertices = ids(Vertex {
            point: Point3::ORIGIN,
            tolerance: None,
        });
        let line = Line::new(Point3::ORIGIN, Vec3::X, &Precision::DEFAULT).expect("a line");
        let curves = ids(Curve::Line(line));
        let surfaces = ids(Surface::Plane(Plane::new(Frame::WORLD)));
        Self {
            bodies,
            regions,
            shells,
            faces,
            loops,
            fins,
            edges,
            vertices,
            curves,
            surfaces,
        }
    }
}

// ---- there and back

/// An own tolerance, made at the least precision: at the model's the Rust makes none below the session's, though it takes one that is there.
pub fn own(tolerance: Option<f64>) -> Result<Option<Tolerance>> {
    let least = Precision::new(f64::from_bits(1), 1.0e-11, 1.0e12)?;
    tolerance.map(|t| Tolerance::new(t, &least)).transpose()
}

/// Builds the model. Directions and normals of `plain` become what the Rust made of them. An error
/// is the Rust's refusal of a carrier or a tolerance.
pub fn build(plain: &mut Plain, names: &Names) -> Result<Model> {
    let precision = Precision::new(plain.precision, 1.0e-11, 1.0e12)?;
    let mut model = Model::new(precision);
    let mut raw = model.raw();
    for r in &plain.bodies {
        raw.insert_body(Body {
            kind: KINDS[r.kind as usize].1,
            regions: pick(&names.regions, &r.regions),
        })?;
    }
    for r in &plain.regions {
        raw.insert_region(Region {
            body: names.bodies[r.body],
            solid: r.solid,
            shells: pick(&names.shells, &r.shells),
        })?;
    }
    for r in &plain.shells {
        raw.insert_shell(Shell {
            region: names.regions[r.region],
            faces: pick(&names.faces, &r.faces),
            wire_edges: pick(&names.edges, &r.wire_edges),
            acorn_vertices: pick(&names.vertices, &r.acorn_vertices),
        })?;
    }
    for r in &plain.faces {
        raw.insert_face(Face {
            front: r.front.map(|id| names.shells[id]),
            back: r.back.map(|id| names.shells[id]),
            loops: pick(&names.loops, &r.loops),
            surface: r.surface.map(|id| names.surfaces[id]),
            sense: sense(r.positive),
        })?;
    }
    for r in &plain.loops {
        raw.insert_loop(Loop {
            face: names.faces[r.face],
            fins: pick(&names.fins, &r.fins),
        })?;
    }
    for r in &plain.fins {
        let fin = raw.insert_fin(Fin {
            owner: names.loops[r.owner],
            edge: names.edges[r.edge],
            sense: sense(r.positive),
        })?;
        if r.pcurve {
            let geometry = FinGeometry {
                pcurve: BCurve,
                edge_range: ParamRange::UNBOUNDED,
            };
            raw.set_fin_geometry(fin, geometry)?;
        }
    }
    for r in &plain.edges {
        raw.insert_edge(Edge {
            fins: pick(&names.fins, &r.fins),
            start: r.start.map(|id| names.vertices[id]),
            end: r.end.map(|id| names.vertices[id]),
            curve: r.curve.map(|id| names.curves[id]),
            tolerance: own(r.tolerance)?,
        })?;
    }
    for r in &plain.vertices {
        raw.insert_vertex(Vertex {
            point: point(r.point),
            tolerance: own(r.tolerance)?,
        })?;
    }
    for r in &mut plain.curves {
        let curve = match r {
            Carrier::Line(o, d) => {
                let line = Line::new(point(*o), direction(*d), &precision)?;
                let made = line.direction();
                *d = [made.x, made.y, made.z];
                Curve::Line(line)
            }
            // A circle stands for what is no line.
            _ => Curve::Circle(Circle::new(Frame::WORLD, 1.0, &precision)?),
        };
        raw.geom_mut().add_curve(curve)?;
    }
    for r in &mut plain.surfaces {
        let surface = match r {
            Carrier::Plane(o, n) => {
                let frame = Frame::from_axis(point(*o), direction(*n), &precision)?;
                let made = frame.z();
                *n = [made.x, made.y, made.z];
                Surface::Plane(Plane::new(frame))
            }
            // A sphere stands for what is no plane.
            _ => Surface::Sphere(Sphere::new(Frame::WORLD, 1.0, &precision)?),
        };
        raw.geom_mut().add_surface(surface)?;
    }
    Ok(model)
}

fn all<T, R>(names: &Ids<T>, read: impl Fn(Id<T>) -> Option<R>) -> Vec<R> {
    names.0.iter().map_while(|&id| read(id)).collect()
}

/// All tables of the Rust's model, and the version that it is asked by. The Rust has no offices; every body is of office 0.
pub fn read(model: &Model, names: &Names) -> Plain {
    let three = |p: Point3| [p.x, p.y, p.z];
    let way = |v: Vec3| [v.x, v.y, v.z];
    let own = |tolerance: Option<Tolerance>| tolerance.map(Tolerance::value);
    Plain {
        version: version(),
        precision: model.precision().linear(),
        bodies: all(&names.bodies, |id| {
            let r = model.body(id).ok()?;
            let kind = KINDS.iter().find(|k| k.1 == r.kind).expect("five kinds").0;
            Some(plain::Body {
                kind,
                office: 0,
                regions: slots(&r.regions),
            })
        }),
        regions: all(&names.regions, |id| {
            let r = model.region(id).ok()?;
            Some(plain::Region {
                body: slot(r.body),
                solid: r.solid,
                shells: slots(&r.shells),
            })
        }),
        shells: all(&names.shells, |id| {
            let r = model.shell(id).ok()?;
            Some(plain::Shell {
                region: slot(r.region),
                faces: slots(&r.faces),
                wire_edges: slots(&r.wire_edges),
                acorn_vertices: slots(&r.acorn_vertices),
            })
        }),
        faces: all(&names.faces, |id| {
            let r = model.face(id).ok()?;
            Some(plain::Face {
                front: r.front.map(slot),
                back: r.back.map(slot),
                loops: slots(&r.loops),
                surface: r.surface.map(slot),
                positive: r.sense == Sense::Positive,
            })
        }),
        loops: all(&names.loops, |id| {
            let r = model.loop_(id).ok()?;
            Some(plain::Loop {
                face: slot(r.face),
                fins: slots(&r.fins),
            })
        }),
        fins: all(&names.fins, |id| {
            let r = model.fin(id).ok()?;
            Some(plain::Fin {
                owner: slot(r.owner),
                edge: slot(r.edge),
                positive: r.sense == Sense::Positive,
                pcurve: model.fin_geometry(id).is_ok_and(|g| g.is_some()),
            })
        }),
        edges: all(&names.edges, |id| {
            let r = model.edge(id).ok()?;
            Some(plain::Edge {
                fins: slots(&r.fins),
                start: r.start.map(slot),
                end: r.end.map(slot),
                curve: r.curve.map(slot),
                tolerance: own(r.tolerance),
            })
        }),
        vertices: all(&names.vertices, |id| {
            let r = model.vertex(id).ok()?;
            Some(plain::Vertex {
                point: three(r.point),
                tolerance: own(r.tolerance),
            })
        }),
        curves: all(&names.curves, |id| {
            Some(match model.geom().curve(id).ok()? {
                Curve::Line(l) => Carrier::Line(three(l.origin()), way(l.direction())),
                _ => Carrier::Other,
            })
        }),
        surfaces: all(&names.surfaces, |id| {
            Some(match model.geom().surface(id).ok()? {
                Surface::Plane(s) => Carrier::Plane(three(s.frame().origin()), way(s.frame().z())),
                _ => Carrier::Other,
            })
        }),
    }
}

// ---- the answers

/// An answer as numbers: 0 and the value's, or the refusal alone; and in words, for counting.
pub struct Told {
    pub numbers: Vec<u64>,
    pub words: String,
}

impl Told {
    pub fn refused(&self) -> bool {
        self.numbers[0] != 0
    }
}

fn told<T>(answer: Result<T>, numbers: impl FnOnce(T) -> Vec<u64>) -> Told {
    match answer {
        Err(error) => {
            let what = error.message().split(" Id(").next().unwrap_or("");
            Told {
                numbers: vec![error.code() as u64],
                words: format!("{} {what}", error.code() as u64),
            }
        }
        Ok(value) => Told {
            numbers: [vec![0], numbers(value)].concat(),
            words: "given".into(),
        },
    }
}

fn listed<T>(list: Vec<Id<T>>) -> Vec<u64> {
    list.into_iter().map(|id| slot(id) as u64).collect()
}

pub fn walks(model: &Model, names: &Names, body: usize) -> [Told; 3] {
    let body = names.bodies[body];
    [
        told(model.body_faces(body), listed),
        told(model.body_edges(body), listed),
        told(model.body_vertices(body), listed),
    ]
}

pub fn ends(model: &Model, names: &Names, fin: usize) -> Told {
    told(model.fin_vertices(names.fins[fin]), |(start, end)| {
        vec![optional(start.map(slot)), optional(end.map(slot))]
    })
}

pub fn boxed(model: &Model, names: &Names, body: usize) -> Told {
    let body = names.bodies[body];
    let answer = body_bounding_box(model, body).and_then(|found| {
        let points = model
            .body_vertices(body)?
            .into_iter()
            .map(|id| model.vertex(id).map(|v| v.point))
            .collect::<Result<Vec<_>>>()?;
        // 01's addition: "a coordinate not finite 4".
        if points.iter().any(|p| !p.is_finite()) {
            return Err(Error::degenerate("a coordinate is not finite"));
        }
        // 01, "equal zeros keep the first met": `f64::min` and `max` leave open which zero they give.
        let first = |value: f64, axis: fn(&Point3) -> f64| {
            if value == 0.0 {
                points.iter().map(axis).find(|&x| x == 0.0).unwrap_or(value)
            } else {
                value
            }
        };
        let corner = |p: Point3| {
            [
                first(p.x, |p| p.x),
                first(p.y, |p| p.y),
                first(p.z, |p| p.z),
            ]
        };
        Ok([corner(found.min()), corner(found.max())].concat())
    });
    told(answer, |floats| floats.into_iter().map(bits).collect())
}

pub fn volume(model: &Model, names: &Names, body: usize) -> Told {
    told(body_volume(model, names.bodies[body]), |v| vec![bits(v)])
}

pub fn bounds(model: &Model, names: &Names, edge: usize) -> Told {
    told(edge_parameter_bounds(model, names.edges[edge]), |r| {
        vec![bits(r.lo), bits(r.hi)]
    })
}

/// Whether an entity exists, by its class, which is the number of its table.
pub fn contains(model: &Model, names: &Names, class: u32, id: usize) -> bool {
    model.contains(match class {
        0 => EntityRef::Body(names.bodies[id]),
        1 => EntityRef::Region(names.regions[id]),
        2 => EntityRef::Shell(names.shells[id]),
        3 => EntityRef::Face(names.faces[id]),
        4 => EntityRef::Loop(names.loops[id]),
        5 => EntityRef::Fin(names.fins[id]),
        6 => EntityRef::Edge(names.edges[id]),
        _ => EntityRef::Vertex(names.vertices[id]),
    })
}

/// The model is changed where the split is accepted.
pub fn split(model: &mut Model, names: &Names, edge: usize, fraction: f64) -> Told {
    told(split_line_edge(model, names.edges[edge], fraction), |s| {
        [slot(s.original_edge), slot(s.new_edge), slot(s.vertex)]
            .map(|id| id as u64)
            .to_vec()
    })
}

// ---- the report

const FAR: &str = "projection distance is not finite";

/// A fault's class and id.
fn entity(entity: EntityRef) -> (u64, usize) {
    match entity {
        EntityRef::Body(id) => (0, slot(id)),
        EntityRef::Region(id) => (1, slot(id)),
        EntityRef::Shell(id) => (2, slot(id)),
        EntityRef::Face(id) => (3, slot(id)),
        EntityRef::Loop(id) => (4, slot(id)),
        EntityRef::Fin(id) => (5, slot(id)),
        EntityRef::Edge(id) => (6, slot(id)),
        EntityRef::Vertex(id) => (7, slot(id)),
    }
}

/// 01's reason of a fault, by its kind, class and message.
fn reason(fault: &Fault) -> u64 {
    use EntityRef as E;
    use FaultKind as K;
    let message = fault.message.as_str();
    let names = |class: &str| {
        message
            .strip_prefix(class)
            .is_some_and(|id| id.starts_with(" Id(") && id.ends_with("v0)"))
    };
    let failed = [
        "InvalidArgument: projection point must be finite",
        "InvalidArgument: curve parameter must be finite",
        "Degenerate: curve evaluation is not finite",
        "Degenerate: projection distance is not finite",
    ];
    match (fault.kind, fault.entity) {
        (K::RegionLayout, E::Body(_)) if message == "body has no regions" => 1,
        (K::RegionLayout, E::Body(_)) if message == "region 0 must be the infinite void" => 2,
        (K::MissingEntity, E::Body(_)) if names("region") => 3,
        (K::BackPointer, E::Region(_)) if message == "region does not point to its body" => 4,
        (K::MissingEntity, E::Region(_)) if names("shell") => 5,
        (K::BackPointer, E::Shell(_)) if message == "shell does not point to its region" => 6,
        (K::MissingEntity, E::Shell(_)) if names("face") => 7,
        (K::BackPointer, E::Face(_))
            if message == "face does not reference the shell listing it" =>
        {
            8
        }
        (K::MissingGeometry, E::Face(_)) if message == "face has no surface" => 9,
        (K::MissingEntity, E::Face(_)) if names("loop") => 10,
        (K::BackPointer, E::Loop(_)) if message == "loop does not point to its face" => 11,
        (K::EmptyLoop, E::Loop(_)) if message == "loop has no fins" => 12,
        (K::MissingEntity, E::Loop(_)) if names("fin") => 13,
        (K::BackPointer, E::Fin(_)) if message == "fin does not point to its loop" => 14,
        (K::MissingEntity, E::Fin(_)) if names("edge") => 15,
        (K::BackPointer, E::Edge(_)) if message == "edge does not list its fin" => 16,
        (K::MissingEntity, E::Edge(_)) if names("vertex") => 17,
        (K::OpenLoop, E::Fin(_)) if message == "fin does not end where the next fin starts" => 18,
        (K::NonManifoldEdge, E::Edge(_))
            if message.starts_with("solid edge has ") && message.ends_with(" fins, expected 2") =>
        {
            19
        }
        (K::FinSenses, E::Edge(_)) if message == "both fins run in the same direction" => 20,
        (K::MissingGeometry, E::Edge(_)) if message == "edge has no curve" => 21,
        (K::VertexOffCurve, E::Vertex(_))
            if message.starts_with("vertex is ") && message.ends_with(" from its edge curve") =>
        {
            22
        }
        (K::VertexOffSurface, E::Vertex(_)) if message.contains(" from face surface, ") => 23,
        (K::EdgeOffSurface, E::Edge(_)) if message.contains(" from face surface, ") => 24,
        (K::MissingEntity, E::Edge(_)) if names("curve") || names("surface") => 25,
        (K::MissingEntity, E::Vertex(_)) if names("surface") => 25,
        (K::MissingGeometry, E::Edge(_) | E::Vertex(_)) if failed.contains(&message) => 26,
        _ => panic!("no reason is known for {fault:?}"),
    }
}

/// One curve test of a vertex: what `hypot` says in the Rust, and what 01's intervals say.
struct CurveTest {
    vertex: VertexId,
    off: bool,
    sign: Option<Sign>,
}

/// Why a report is left out.
type Why = &'static str;

/// The curve tests that the checker makes of a body, in its order.
fn curve_tests(model: &Model, body: BodyId) -> std::result::Result<Vec<CurveTest>, Why> {
    let mut tests = Vec::new();
    let precision = model.precision();
    let regions = model.body(body).map_or(&[][..], |r| &r.regions);
    let shells = regions
        .iter()
        .filter_map(|&id| model.region(id).ok())
        .flat_map(|r| &r.shells);
    let faces = shells
        .filter_map(|&id| Some((id, model.shell(id).ok()?)))
        .flat_map(|(id, r)| r.faces.iter().map(move |&face| (id, face)))
        .filter_map(|(shell, id)| Some((shell, model.face(id).ok()?)))
        .filter(|(shell, face)| face.front.is_none_or(|front| front == *shell));
    for (_, face) in faces {
        let fins = face
            .loops
            .iter()
            .filter_map(|&id| model.loop_(id).ok())
            .flat_map(|r| &r.fins)
            .filter_map(|&id| model.fin(id).ok());
        for edge in fins.filter_map(|fin| model.edge(fin.edge).ok()) {
            let (Some(curve), Some(_)) = (edge.curve, face.surface) else {
                continue;
            };
            for id in [edge.start, edge.end].into_iter().flatten() {
                let Ok(vertex) = model.vertex(id) else {
                    continue;
                };
                let own = effective_tolerance(vertex.tolerance, precision);
                let edges = effective_tolerance(edge.tolerance, precision);
                let near = match model
                    .geom()
                    .project_to_curve(curve, vertex.point, precision)
                {
                    Ok(near) => near,
                    // A fault 26 of the Rust, and no failure by 01, which computes no distance.
                    Err(error) if error.message() == FAR => {
                        return Err("a distance by hypot is not finite");
                    }
                    Err(_) => continue,
                };
                let delta = vector(vertex.point, near.point);
                let sum = Interval::point(own) + Interval::point(edges);
                tests.push(CurveTest {
                    vertex: id,
                    off: near.distance > own + edges,
                    sign: (dot(delta, delta) - sum.sqr()).sign(),
                });
            }
        }
    }
    Ok(tests)
}

/// 01's departure: the off-curve verdicts by intervals in place of those by `hypot`; the rest of the
/// report as it is.
fn by_intervals(report: &Report, tests: &[CurveTest]) -> std::result::Result<Report, Why> {
    if tests
        .iter()
        .any(|test| !test.off && test.sign == Some(Sign::Positive))
    {
        // It would have to be put between the other faults.
        return Err("a fault that hypot does not see");
    }
    let mut report = report.clone();
    let mut off = tests.iter().filter(|test| test.off);
    report.faults.retain(|fault| {
        if fault.kind != FaultKind::VertexOffCurve {
            return true;
        }
        let test = off.next().expect("each such fault is of a test");
        assert_eq!(fault.entity, EntityRef::Vertex(test.vertex));
        test.sign == Some(Sign::Positive)
    });
    assert!(off.next().is_none(), "each such test is a fault");
    report.unchecked += tests.iter().filter(|test| test.sign.is_none()).count();
    Ok(report)
}

/// The Rust's report as 01 has it, and the Rust's own where 01's intervals changed it; or why there is no likeness of it in the Rust.
fn checked(
    model: &Model,
    names: &Names,
    body: usize,
    options: &CheckOptions,
) -> std::result::Result<(Result<Report>, Option<Report>), Why> {
    let body = names.bodies[body];
    let mut answer = check_body(model, body, options);
    let mut own = None;
    if options.geometry
        && let Ok(report) = &mut answer
    {
        let plain = read(model, names);
        if [plain.curves, plain.surfaces]
            .concat()
            .contains(&Carrier::Other)
        {
            // 01's rule for it has no likeness in the Rust.
            return Err("other geometry");
        }
        let changed = by_intervals(report, &curve_tests(model, body)?)?;
        if changed != *report {
            own = Some(std::mem::replace(report, changed));
        }
    }
    Ok((answer, own))
}

/// The report's `unchecked`, then reason, kind, class and id of each fault; or why it is left out.
/// In words: whether 01's intervals changed it.
pub fn report(
    model: &Model,
    names: &Names,
    body: usize,
    geometry: bool,
    samples: usize,
) -> std::result::Result<Told, Why> {
    let options = CheckOptions {
        geometry,
        edge_samples: samples,
    };
    let (answer, own) = checked(model, names, body, &options)?;
    let mut told = told(answer, |report| {
        let faults = report.faults.iter().flat_map(|fault| {
            let (class, id) = entity(fault.entity);
            [reason(fault), fault.kind as u64, class, id as u64]
        });
        [report.unchecked as u64]
            .into_iter()
            .chain(faults)
            .collect()
    });
    told.words = own.map_or("as by hypot", |_| "changed by intervals").into();
    Ok(told)
}

/// W-203, "Fit to saw must also mean that the body is solid, that some solid region has a face, and that every shell named by a face of the body is one of that
/// body's shells and lists the face": what of it does not hold, if something.
fn not_whole(model: &Model, body: BodyId) -> Option<&'static str> {
    let record = model.body(body).ok()?;
    if record.kind != BodyKind::Solid {
        return Some("no solid");
    }
    let regions: Vec<&Region> = record
        .regions
        .iter()
        .filter_map(|&id| model.region(id).ok())
        .collect();
    let has_face = |id| model.shell(id).is_ok_and(|shell| !shell.faces.is_empty());
    let faced = |region: &Region| region.solid && region.shells.iter().copied().any(has_face);
    if !regions.iter().any(|region| faced(region)) {
        return Some("no face in a solid region");
    }
    for id in model.body_faces(body).unwrap_or_default() {
        let Ok(face) = model.face(id) else {
            continue;
        };
        for named in [face.front, face.back].into_iter().flatten() {
            let Ok(shell) = model.shell(named) else {
                return Some("a face names a shell that is missing");
            };
            if !regions.iter().any(|region| region.shells.contains(&named)) {
                return Some("a face names a shell of no region of the body");
            }
            if !shell.faces.contains(&id) {
                return Some("a face names a shell that does not list it");
            }
        }
    }
    None
}

/// Fit to saw: the Rust's own `is_valid` of its default report, which has geometry and three samples (where 01's intervals changed that
/// report, of the changed one), and W-203's part. In words, also what the Rust says there, and what a valid report is not fit for.
pub fn verdict(model: &Model, names: &Names, body: usize) -> std::result::Result<Told, Why> {
    let options = CheckOptions::default();
    assert!(options.geometry && options.edge_samples == 3);
    let (answer, own) = checked(model, names, body, &options)?;
    let lacking = not_whole(model, names.bodies[body]);
    let fit = |report: &Report| report.is_valid() && lacking.is_none();
    let say = |report: &Report| match (report.is_valid(), lacking) {
        (false, _) => "not fit".into(),
        (true, None) => "fit".into(),
        (true, Some(what)) => format!("not fit, valid report: {what}"),
    };
    let words: String = match (&answer, own) {
        (Err(error), _) => format!("refused with {}", error.code() as u64),
        (Ok(report), None) => say(report),
        (Ok(report), Some(own)) => format!("{} by intervals, {} by hypot", say(report), say(&own)),
    };
    let mut told = told(answer, |report| vec![fit(&report).into()]);
    told.words = words;
    Ok(told)
}
