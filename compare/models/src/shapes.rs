//! Sound models.

use std::collections::HashMap;

use crate::plain::{
    Body, Carrier, Edge, Face, Fin, Kind, Loop, Plain, Region, Shell, Triple, Vertex,
};
use crate::random::Random;

/// Where the points of a body lie: turned, and moved.
struct Place {
    turn: [Triple; 3],
    offset: Triple,
}

fn minus(a: Triple, b: Triple) -> Triple {
    [a[0] - b[0], a[1] - b[1], a[2] - b[2]]
}

fn cross(a: Triple, b: Triple) -> Triple {
    [
        a[1] * b[2] - a[2] * b[1],
        a[2] * b[0] - a[0] * b[2],
        a[0] * b[1] - a[1] * b[0],
    ]
}

/// Of a plane through the first two corners and the last, or along a blade.
fn normal(corners: &[Triple]) -> Triple {
    if let [a, b] = *corners {
        let line = minus(a, b);
        let across = if line[0].abs() < line[1].abs() {
            [1.0, 0.0, 0.0]
        } else {
            [0.0, 1.0, 0.0]
        };
        return cross(line, across);
    }
    let [first, second, last] = [0, 1, corners.len() - 1].map(|k| corners[k]);
    cross(minus(second, first), minus(last, first))
}

impl Place {
    const ORIGIN: Self = Self {
        turn: [[1.0, 0.0, 0.0], [0.0, 1.0, 0.0], [0.0, 0.0, 1.0]],
        offset: [0.0; 3],
    };

    fn new(random: &mut Random) -> Self {
        if random.one_in(4) {
            return Self::ORIGIN;
        }
        let far = random.pick(&[0.0, 1.0, 10.0, 1000.0, 1.0e6]);
        let offset = [0; 3].map(|_| random.between(-far, far));
        if random.one_in(4) {
            let offset = offset.map(f64::round);
            return Self {
                offset,
                ..Self::ORIGIN
            };
        }
        let [(s, c), (t, d)] = [0; 2].map(|_| random.between(0.0, 6.3).sin_cos());
        Self {
            turn: [[c, -s, 0.0], [s * d, c * d, -t], [s * t, c * t, d]],
            offset,
        }
    }

    fn at(&self, p: Triple) -> Triple {
        let row = |k: usize| {
            let [a, b, c] = self.turn[k];
            a * p[0] + b * p[1] + c * p[2] + self.offset[k]
        };
        [row(0), row(1), row(2)]
    }
}

/// Vertices and, for each face, its loops as cycles of vertices, anticlockwise seen from outside.
struct Mesh {
    points: Vec<Triple>,
    faces: Vec<Vec<Vec<usize>>>,
}

fn box_of([a, b, c]: Triple) -> Mesh {
    let faces = [
        [0, 2, 3, 1],
        [4, 5, 7, 6],
        [0, 1, 5, 4],
        [2, 6, 7, 3],
        [0, 4, 6, 2],
        [1, 3, 7, 5],
    ];
    let side = |bit: usize, i: usize, length: f64| if i & bit != 0 { length } else { 0.0 };
    Mesh {
        points: (0..8)
            .map(|i| [side(1, i, a), side(2, i, b), side(4, i, c)])
            .collect(),
        faces: faces.iter().map(|cycle| vec![cycle.to_vec()]).collect(),
    }
}

fn prism(n: usize, radius: f64, height: f64) -> Mesh {
    let corner = |k: usize, z: f64| {
        let (s, c) = (std::f64::consts::TAU * k as f64 / n as f64).sin_cos();
        [radius * c, radius * s, z]
    };
    let sides = (0..n).map(|k| vec![vec![k, (k + 1) % n, n + (k + 1) % n, n + k]]);
    let ends = [vec![(0..n).rev().collect()], vec![(n..2 * n).collect()]];
    Mesh {
        points: (0..2 * n)
            .map(|k| corner(k % n, if k < n { 0.0 } else { height }))
            .collect(),
        faces: ends.into_iter().chain(sides).collect(),
    }
}

/// A square slab of twice an outer half-width, with a square hole of twice an inner one right through it: the ring above and the one below are four faces each.
fn pierced(outer: f64, inner: f64, height: f64) -> Mesh {
    let corner = |k: usize| {
        let (half, z) = (
            if k & 4 == 0 { outer } else { inner },
            if k < 8 { 0.0 } else { height },
        );
        let [x, y] = [[-1.0, -1.0], [1.0, -1.0], [1.0, 1.0], [-1.0, 1.0]][k % 4];
        [half * x, half * y, z]
    };
    let faces = (0..4).flat_map(|k| {
        let next = (k + 1) % 4;
        [
            vec![k, next, 8 + next, 8 + k],
            vec![4 + next, 4 + k, 12 + k, 12 + next],
            vec![8 + k, 8 + next, 12 + next, 12 + k],
            vec![next, k, 4 + k, 4 + next],
        ]
    });
    Mesh {
        points: (0..16).map(corner).collect(),
        faces: faces.map(|cycle| vec![cycle]).collect(),
    }
}

fn tetrahedron(a: f64, b: f64, c: f64) -> Mesh {
    Mesh {
        points: vec![[0.0; 3], [a, 0.0, 0.0], [0.0, b, 0.0], [0.0, 0.0, c]],
        faces: vec![
            vec![vec![0, 2, 1]],
            vec![vec![0, 1, 3]],
            vec![vec![0, 3, 2]],
            vec![vec![1, 2, 3]],
        ],
    }
}

fn polygon(n: usize, radius: f64) -> Mesh {
    let mut mesh = prism(n, radius, 1.0);
    mesh.points.truncate(n);
    mesh.faces = vec![vec![(0..n).collect()]];
    mesh
}

/// A face whose loop runs along one edge and back.
fn blade(radius: f64) -> Mesh {
    let mut mesh = polygon(3, radius);
    mesh.points.truncate(2);
    mesh.faces = vec![vec![vec![1, 0]]];
    mesh
}

/// A face with a hole.
fn frame(a: f64, b: f64) -> Mesh {
    let rectangle = |m: f64| [[m, m], [a - m, m], [a - m, b - m], [m, b - m]];
    let points = [rectangle(0.0), rectangle(0.125 * a.min(b))].concat();
    Mesh {
        points: points.into_iter().map(|[x, y]| [x, y, 0.0]).collect(),
        faces: vec![vec![vec![0, 1, 2, 3], vec![7, 6, 5, 4]]],
    }
}

/// How edges and curves are laid: along increasing vertices or either way, with the carrier's origin
/// at the start or elsewhere on the line.
#[derive(Clone, Copy)]
struct Style {
    either: bool,
    shifted: bool,
}

impl Plain {
    fn edge(&mut self, random: &mut Random, style: Style, a: usize, b: usize) -> usize {
        let flip = style.either && random.one_in(2);
        let (a, b) = if flip { (b, a) } else { (a, b) };
        let [start, end] = [a, b].map(|v| self.vertices[v].point);
        let way = minus(end, start);
        let t = if style.shifted {
            random.between(-1.0, 2.0)
        } else {
            0.0
        };
        let origin = [0, 1, 2].map(|k| start[k] + t * way[k]);
        self.curves.push(Carrier::Line(origin, way));
        self.edges.push(Edge {
            fins: vec![],
            start: Some(a),
            end: Some(b),
            curve: Some(self.curves.len() - 1),
            tolerance: None,
        });
        self.edges.len() - 1
    }

    fn body(&mut self, kind: Kind) -> usize {
        self.bodies.push(Body {
            kind,
            office: 0,
            regions: vec![],
        });
        self.bodies.len() - 1
    }

    fn region(&mut self, body: usize, solid: bool) -> usize {
        self.regions.push(Region {
            body,
            solid,
            shells: vec![],
        });
        let id = self.regions.len() - 1;
        self.bodies[body].regions.push(id);
        id
    }

    fn shell(&mut self, region: usize) -> usize {
        self.shells.push(Shell {
            region,
            faces: vec![],
            wire_edges: vec![],
            acorn_vertices: vec![],
        });
        let id = self.shells.len() - 1;
        self.regions[region].shells.push(id);
        id
    }

    fn vertex(&mut self, point: Triple) -> usize {
        self.vertices.push(Vertex {
            point,
            tolerance: None,
        });
        self.vertices.len() - 1
    }

    /// The faces of a mesh between two shells, with their vertices, edges, loops and fins.
    fn mesh(
        &mut self,
        random: &mut Random,
        mesh: &Mesh,
        place: &Place,
        style: Style,
        [front, back]: [Option<usize>; 2],
    ) {
        let vertices: Vec<usize> = mesh
            .points
            .iter()
            .map(|&p| self.vertex(place.at(p)))
            .collect();
        let mut edges = HashMap::new();
        for loops in &mesh.faces {
            let corners: Vec<Triple> = loops[0]
                .iter()
                .map(|&k| self.vertices[vertices[k]].point)
                .collect();
            let normal = normal(&corners);
            self.surfaces.push(Carrier::Plane(corners[0], normal));
            let face = self.faces.len();
            self.faces.push(Face {
                front,
                back,
                loops: vec![],
                surface: Some(self.surfaces.len() - 1),
                positive: true,
            });
            let other = back.filter(|&shell| front != Some(shell));
            for shell in [front, other].into_iter().flatten() {
                self.shells[shell].faces.push(face);
            }
            for cycle in loops {
                let owner = self.loops.len();
                self.loops.push(Loop { face, fins: vec![] });
                self.faces[face].loops.push(owner);
                for k in 0..cycle.len() {
                    let (a, b) = (vertices[cycle[k]], vertices[cycle[(k + 1) % cycle.len()]]);
                    let edge = *edges
                        .entry((a.min(b), a.max(b)))
                        .or_insert_with_key(|&(low, high)| self.edge(random, style, low, high));
                    let fin = self.fins.len();
                    self.fins.push(Fin {
                        owner,
                        edge,
                        positive: self.edges[edge].start == Some(a),
                        pcurve: false,
                    });
                    self.loops[owner].fins.push(fin);
                    self.edges[edge].fins.push(fin);
                }
            }
        }
    }

    fn wires(&mut self, random: &mut Random, place: &Place, style: Style, shell: usize) {
        let n = 1 + random.below(4);
        let points: Vec<usize> = (0..=n)
            .map(|_| {
                let p = [0; 3].map(|_| random.between(0.0, 8.0));
                self.vertex(place.at(p))
            })
            .collect();
        for pair in points.windows(2) {
            let edge = self.edge(random, style, pair[0], pair[1]);
            self.shells[shell].wire_edges.push(edge);
        }
        if n > 1 && random.one_in(2) {
            let edge = self.edge(random, style, points[n], points[0]);
            self.shells[shell].wire_edges.push(edge);
        }
    }

    fn acorn(&mut self, random: &mut Random, place: &Place, shell: usize) {
        let p = [0; 3].map(|_| random.between(-8.0, 8.0));
        let vertex = self.vertex(place.at(p));
        self.shells[shell].acorn_vertices.push(vertex);
    }

    fn solid(&mut self, random: &mut Random, mesh: &Mesh, place: &Place, style: Style) {
        let body = self.body(Kind::Solid);
        let shells = [false, true].map(|solid| {
            let region = self.region(body, solid);
            Some(self.shell(region))
        });
        self.mesh(random, mesh, place, style, shells);
    }

    fn sheet(&mut self, random: &mut Random, mesh: &Mesh, place: &Place, style: Style) -> usize {
        let body = self.body(Kind::Sheet);
        let region = self.region(body, false);
        let shell = self.shell(region);
        let sides = random.pick(&[
            [Some(shell), None],
            [None, Some(shell)],
            [Some(shell), Some(shell)],
        ]);
        self.mesh(random, mesh, place, style, sides);
        shell
    }

    /// A box with a hole within: the material has two shells, and the hole is a region of its own.
    fn hollow(&mut self, random: &mut Random, place: &Place, style: Style) {
        let body = self.body(Kind::Solid);
        let [void, material, hole] = [false, true, false].map(|solid| self.region(body, solid));
        let [outside, outer, inner, inside] =
            [void, material, material, hole].map(|region| Some(self.shell(region)));
        let outer_mesh = tetrahedron(8.0, 9.0, 10.0);
        self.mesh(random, &outer_mesh, place, style, [outside, outer]);
        let mut mesh = tetrahedron(1.0, 1.5, 2.0);
        for p in &mut mesh.points {
            *p = p.map(|x| x + 0.5);
        }
        for cycle in mesh.faces.iter_mut().flatten() {
            cycle.reverse();
        }
        self.mesh(random, &mesh, place, style, [inside, inner]);
    }

    fn size(random: &mut Random) -> f64 {
        if random.one_in(3) {
            random.pick(&[1.0, 2.0, 3.0, 4.0])
        } else {
            random.between(0.5, 9.5)
        }
    }

    fn add(&mut self, random: &mut Random) -> &'static str {
        let place = Place::new(random);
        let style = Style {
            either: random.one_in(2),
            shifted: random.one_in(3),
        };
        let [a, b, c] = [0; 3].map(|_| Self::size(random));
        match random.below(16) {
            0 => {
                let increasing = Style {
                    either: false,
                    shifted: false,
                };
                self.solid(random, &box_of([4.0, 3.0, 2.0]), &Place::ORIGIN, increasing);
                "trial box"
            }
            1 | 2 => {
                self.solid(random, &box_of([a, b, c]), &place, style);
                "box"
            }
            3 => {
                let n = 3 + random.below(3);
                self.solid(random, &prism(n, a, b), &place, style);
                "prism"
            }
            4..=6 => {
                self.solid(random, &tetrahedron(a, b, c), &place, style);
                "tetrahedron"
            }
            7 | 8 => {
                let n = 3 + random.below(4);
                self.sheet(random, &polygon(n, a), &place, style);
                "sheet"
            }
            9 => {
                self.sheet(random, &frame(a, b), &place, style);
                "face with a hole"
            }
            10 => {
                self.sheet(random, &blade(a), &place, style);
                "blade"
            }
            11 => {
                let body = self.body(Kind::Wire);
                let region = self.region(body, false);
                let shell = self.shell(region);
                self.wires(random, &place, style, shell);
                "wire"
            }
            12 => {
                let body = self.body(Kind::Acorn);
                let region = self.region(body, false);
                let shell = self.shell(region);
                self.acorn(random, &place, shell);
                "acorn"
            }
            13 => {
                self.hollow(random, &place, style);
                "solid with a hole within"
            }
            _ => {
                let mut mesh = if random.one_in(2) {
                    polygon(3, a)
                } else {
                    box_of([a, b, c])
                };
                mesh.faces.truncate(3);
                let shell = self.sheet(random, &mesh, &place, style);
                let body = self.bodies.len() - 1;
                self.bodies[body].kind = Kind::General;
                self.wires(random, &place, style, shell);
                self.acorn(random, &place, shell);
                "general"
            }
        }
    }

    /// A sound model of one or two bodies, and what it is.
    pub fn sound(random: &mut Random) -> (Self, String) {
        let mut plain = Self {
            precision: random.pick(&[0.001, 0.001, 0.0009765625, 0.0009765625, 1.0e-8, 0.125]),
            ..Self::default()
        };
        let mut shape = plain.add(random).to_string();
        if plain.fins.len() < 20 && random.one_in(4) {
            shape = format!("{shape} and {}", plain.add(random));
        }
        (plain, shape)
    }

    /// So many prisms, each of so many sides, side by side: for the benchmark.
    pub fn prisms(bodies: usize, sides: usize) -> Self {
        let mut plain = Self {
            precision: 0.001,
            ..Self::default()
        };
        let style = Style {
            either: false,
            shifted: false,
        };
        for k in 0..bodies {
            let mut place = Place::ORIGIN;
            place.offset[0] = 100.0 * k as f64;
            let mut random = Random::new(1, k as u64, 0);
            plain.solid(&mut random, &prism(sides, 40.0, 10.0), &place, style);
        }
        plain
    }

    /// A slab with a hole through it, of binary32 values.
    pub fn pierced() -> Self {
        let mut plain = Self {
            precision: 0.001,
            ..Self::default()
        };
        let style = Style {
            either: false,
            shifted: false,
        };
        let mut random = Random::new(1, 0, 0);
        plain.solid(
            &mut random,
            &pierced(40.0, 12.5, 20.25),
            &Place::ORIGIN,
            style,
        );
        plain
    }

    /// A sound model of up to five bodies, some of them with many sides or as thin as the precision,
    /// and what it is.
    pub fn several(random: &mut Random) -> (Self, String) {
        let mut plain = Self {
            precision: random.pick(&[0.001, 0.001, 0.0009765625, 0.0009765625, 1.0e-8, 0.125]),
            ..Self::default()
        };
        let mut shapes = Vec::new();
        for _ in 0..random.pick(&[1, 1, 1, 1, 2, 2, 3, 5]) {
            let place = Place::new(random);
            let style = Style {
                either: random.one_in(2),
                shifted: random.one_in(3),
            };
            shapes.push(match random.below(24) {
                0 => {
                    let n = 6 + random.below(30);
                    let [a, b] = [0; 2].map(|_| Self::size(random));
                    plain.solid(random, &prism(n, a, b), &place, style);
                    "prism of many sides"
                }
                1 => {
                    let [a, b] = [0; 2].map(|_| Self::size(random));
                    let thin = plain.precision * random.pick(&[0.9, 1.0, 1.5, 1.999, 2.0, 2.5]);
                    plain.solid(random, &box_of([a, thin, b]), &place, style);
                    "thin box"
                }
                _ => plain.add(random),
            });
        }
        (plain, shapes.join(", "))
    }
}
