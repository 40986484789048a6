//! Binary STL of any sort, to be read: closed solids, open ones, garbage, with coordinates, counts and lengths at the borders.

use models::random::Random;

pub type Corner = [f32; 3];
pub type Triangle = [Corner; 3];

/// What stands around the corners, which a reader passes over: the header, and of a triangle the normal and the attribute.
#[derive(Clone, Copy)]
pub struct Around {
    pub header: fn(&mut Random) -> Vec<u8>,
    pub normal: fn(&mut Random, &Triangle) -> Corner,
    pub attribute: fn(&mut Random) -> [u8; 2],
}

impl Around {
    pub const ZEROS: Self = Self {
        header: |_| vec![0; 80],
        normal: |_, _| [0.0; 3],
        attribute: |_| [0; 2],
    };
}

/// The file, with its own count.
pub fn file(triangles: &[Triangle], around: &Around, random: &mut Random) -> Vec<u8> {
    let mut bytes = (around.header)(random);
    bytes.extend((triangles.len() as u32).to_le_bytes());
    for triangle in triangles {
        let normal = (around.normal)(random, triangle);
        for x in normal.iter().chain(triangle.iter().flatten()) {
            bytes.extend(x.to_le_bytes());
        }
        bytes.extend((around.attribute)(random));
    }
    bytes
}

// ---- solids

/// A fan over each face.
fn fans(points: &[Corner], faces: &[Vec<usize>]) -> Vec<Triangle> {
    let fan = |face: &Vec<usize>| -> Vec<Triangle> {
        let pairs = face[1..].windows(2);
        pairs
            .map(|pair| [face[0], pair[0], pair[1]].map(|k| points[k]))
            .collect()
    };
    faces.iter().flat_map(fan).collect()
}

pub fn box_of([a, b, c]: Corner) -> Vec<Triangle> {
    let corner = |k: usize| [[0.0, a][k & 1], [0.0, b][k >> 1 & 1], [0.0, c][k >> 2]];
    let points: Vec<Corner> = (0..8).map(corner).collect();
    let faces = [
        [0, 2, 3, 1],
        [4, 5, 7, 6],
        [0, 1, 5, 4],
        [2, 6, 7, 3],
        [0, 4, 6, 2],
        [1, 3, 7, 5],
    ];
    fans(&points, &faces.map(|face| face.to_vec()))
}

/// Of the points of a circle.
fn around(n: usize, k: usize) -> [f32; 2] {
    let angle = std::f64::consts::TAU * k as f64 / n as f64;
    [angle.cos() as f32, angle.sin() as f32]
}

pub fn prism(n: usize, height: f32) -> Vec<Triangle> {
    let point = |k: usize| {
        let [x, y] = around(n, k % n);
        [x, y, [0.0, height][k / n]]
    };
    let points: Vec<Corner> = (0..2 * n).map(point).collect();
    let mut faces: Vec<Vec<usize>> = vec![(0..n).rev().collect(), (n..2 * n).collect()];
    faces.extend((0..n).map(|k| vec![k, (k + 1) % n, n + (k + 1) % n, n + k]));
    fans(&points, &faces)
}

/// Of so many points around, and rings less one: 2·n·(m - 1) triangles.
pub fn sphere(n: usize, m: usize) -> Vec<Triangle> {
    let mut points = vec![[0.0, 0.0, 1.0]];
    for ring in 1..m {
        let angle = std::f64::consts::PI * ring as f64 / m as f64;
        for k in 0..n {
            let [x, y] = around(n, k).map(|x| (f64::from(x) * angle.sin()) as f32);
            points.push([x, y, angle.cos() as f32]);
        }
    }
    points.push([0.0, 0.0, -1.0]);
    let at = |ring: usize, k: usize| 1 + (ring - 1) * n + k % n;
    let mut faces = Vec::new();
    for k in 0..n {
        faces.push(vec![0, at(1, k), at(1, k + 1)]);
        faces.push(vec![points.len() - 1, at(m - 1, k + 1), at(m - 1, k)]);
        for ring in 1..m - 1 {
            faces.push(vec![
                at(ring, k),
                at(ring + 1, k),
                at(ring + 1, k + 1),
                at(ring, k + 1),
            ]);
        }
    }
    fans(&points, &faces)
}

/// A block with a square hole through it: 32 triangles.
pub fn pierced(outer: f32, inner: f32, height: f32) -> Vec<Triangle> {
    let square = [[-1.0, -1.0], [1.0, -1.0], [1.0, 1.0], [-1.0, 1.0]];
    let point = |k: usize| {
        let [x, y] = square[k % 4].map(|x: f32| x * [outer, inner][k / 4 % 2]);
        [x, y, [0.0, height][k / 8]]
    };
    let points: Vec<Corner> = (0..16).map(point).collect();
    let mut faces = Vec::new();
    for k in 0..4 {
        let next = (k + 1) % 4;
        faces.push(vec![4 + k, 4 + next, next, k]);
        faces.push(vec![8 + k, 8 + next, 12 + next, 12 + k]);
        faces.push(vec![k, next, 8 + next, 8 + k]);
        faces.push(vec![4 + next, 4 + k, 12 + k, 12 + next]);
    }
    fans(&points, &faces)
}

pub fn tetrahedron([a, b, c]: Corner) -> Vec<Triangle> {
    let points = [[0.0; 3], [a, 0.0, 0.0], [0.0, b, 0.0], [0.0, 0.0, c]];
    let faces = [[0, 2, 1], [0, 1, 3], [1, 2, 3], [2, 0, 3]];
    fans(&points, &faces.map(|face| face.to_vec()))
}

/// So many leaves about one edge, each a triangle; turned every other one, or not.
fn leaves(n: usize, turned: bool) -> Vec<Triangle> {
    let ends = [[0.0, 0.0, 0.0], [0.0, 0.0, 1.0]];
    let leaf = |k: usize| {
        let [x, y] = around(16, k);
        let [a, b] = if turned && k % 2 == 1 {
            [ends[1], ends[0]]
        } else {
            ends
        };
        [a, b, [x, y, 0.5]]
    };
    (0..n).map(leaf).collect()
}

/// So many tetrahedra about one edge, two fins of it each.
fn wedges(n: usize) -> Vec<Triangle> {
    let wedge = |k: usize| {
        let [a, b] = [[0.0, 0.0, 0.0], [0.0, 0.0, 1.0]];
        let [c, d] = [2 * k, 2 * k + 1].map(|k| {
            let [x, y] = around(24, k);
            [x, y, 0.5]
        });
        [[a, b, c], [b, a, d], [a, c, d], [c, b, d]]
    };
    (0..n).flat_map(wedge).collect()
}

/// Triangles of points of a small lattice.
fn soup(n: usize, most: usize, random: &mut Random) -> Vec<Triangle> {
    let point = |random: &mut Random| [0; 3].map(|_| random.below(most) as f32 - 1.0);
    let triangle = |random: &mut Random| {
        let mut t = [0; 3].map(|_| point(random));
        // Mostly of three corners.
        for _ in 0..4 {
            if t[0] != t[1] && t[1] != t[2] && t[2] != t[0] {
                break;
            }
            t = [0; 3].map(|_| point(random));
        }
        t
    };
    (0..n).map(|_| triangle(random)).collect()
}

/// Triangles that share nothing.
pub fn apart(n: usize) -> Vec<Triangle> {
    let at = |k: usize| {
        let x = k as f32;
        [[x, 0.0, 0.0], [x + 0.5, 1.0, 0.0], [x + 0.25, 0.0, 1.0]]
    };
    (0..n).map(at).collect()
}

/// A closed solid, or two.
fn closed(random: &mut Random) -> (Vec<Triangle>, String) {
    let n = 3 + random.below(6);
    let size = random.pick(&[1.0, 2.0, 3.5, 0.1]);
    let sides = [size, random.pick(&[1.0, 2.0, 3.5, 0.1]), 1.0];
    match random.below(7) {
        0 => (box_of(sides), "a box".into()),
        1 => (prism(n, size), format!("a prism of {n} sides")),
        2 => (tetrahedron(sides), "a tetrahedron".into()),
        3 => (sphere(n, 2 + random.below(5)), "a sphere".into()),
        4 => (pierced(2.0, 1.0, size), "a pierced block".into()),
        5 => {
            let shift = random.pick(&[[3.0; 3], [-1.0, -1.0, 0.0], [0.0; 3], [1.0, 1.0, 1.0]]);
            let other = box_of([1.0; 3]).into_iter();
            let mut two = box_of(sides);
            two.extend(other.map(|t| t.map(|p| added(p, shift))));
            (two, "two boxes".into())
        }
        _ => (box_of([1.0; 3]), "a cube".into()),
    }
}

fn shape(random: &mut Random) -> (Vec<Triangle>, String) {
    match random.below(40) {
        0..22 => closed(random),
        22..25 => {
            let n = random.pick(&[1, 2, 3, 7, 8, 8, 9, 9, 10]);
            (leaves(n, random.one_in(2)), format!("{n} leaves"))
        }
        25..28 => {
            let n = random.pick(&[1, 2, 3, 4, 4, 5, 6]);
            (wedges(n), format!("{n} wedges"))
        }
        28..34 => {
            let most = random.pick(&[2, 3, 3, 4]);
            let n = random.below(24);
            (soup(n, most, random), "soup".into())
        }
        34..36 => {
            let n = 1 + random.below(8);
            (apart(n), format!("{n} apart"))
        }
        36..38 => (Vec::new(), "no triangle".into()),
        38 if random.one_in(3) => large(random),
        _ => (pierced(2.0, 1.0, 1.0), "a pierced cube".into()),
    }
}

/// As large as the tables are, nearly, or a little larger.
fn large(random: &mut Random) -> (Vec<Triangle>, String) {
    match random.below(7) {
        0 => (sphere(32, 9), "a sphere of 512 triangles".into()),
        1 => (sphere(25, 11), "a sphere of 500 triangles".into()),
        2 => (prism(129, 2.0), "a prism of 512 triangles".into()),
        3 => {
            let n = random.pick(&[511, 512, 513, 600]);
            (apart(n), format!("{n} apart"))
        }
        4 => (prism(130, 2.0), "a prism of 516 triangles".into()),
        5 => (sphere(64, 17), "a sphere of 2,048 triangles".into()),
        _ => {
            let n = 400 + random.below(112);
            (soup(n, 40, random), "soup of hundreds".into())
        }
    }
}

fn added(p: Corner, q: Corner) -> Corner {
    [0, 1, 2].map(|axis| p[axis] + q[axis])
}

// ---- changes of the triangles

/// The same corners in a larger or smaller size, or shifted; what is not finite then is not done.
fn placed(triangles: &mut [Triangle], random: &mut Random) -> &'static str {
    let small = f32::from_bits(1);
    let (by, shift, what): (f32, Corner, _) = match random.below(10) {
        0 => (small, [0.0; 3], "subnormal"),
        1 => (f32::MIN_POSITIVE, [0.0; 3], "about the least normal"),
        2 => (f32::MAX / 64.0, [0.0; 3], "huge"),
        3 => (1.0, [1.0e7, -1.0e7, 0.5], "far off"),
        4 => (-1.0, [0.0; 3], "mirrored"),
        5 => (0.3, [0.1, 0.2, -0.7], "somewhere"),
        _ => return "as made",
    };
    for x in triangles.iter_mut().flatten().flatten() {
        *x *= by;
    }
    for t in triangles.iter_mut() {
        *t = t.map(|p| added(p, shift));
    }
    for x in triangles.iter_mut().flatten().flatten() {
        if !x.is_finite() {
            *x = f32::MAX.copysign(*x);
        }
    }
    what
}

/// A coordinate of the first, the last or any triangle.
fn coordinate<'a>(triangles: &'a mut [Triangle], random: &mut Random) -> &'a mut f32 {
    let n = triangles.len();
    let one = random.below(n);
    let triangle = random.pick(&[0, n - 1, one]);
    &mut triangles[triangle][random.below(3)][random.below(3)]
}

/// Bits of binary32 that are no finite number.
const INFINITE: [u32; 8] = [
    0x7f80_0000,
    0xff80_0000,
    0x7fc0_0000,
    0xffc0_0000,
    0x7f80_0001,
    0xff80_0001,
    0x7fff_ffff,
    0xffff_ffff,
];

/// A triangle less, more or turned, or all of them in another order.
fn rearranged(triangles: &mut Vec<Triangle>, random: &mut Random) -> &'static str {
    let n = triangles.len();
    let one = random.below(n);
    let at = random.below(n + 1);
    let at = random.pick(&[0, n, at]);
    let [a, b, c] = triangles[one];
    match random.below(8) {
        0 => {
            triangles.remove(one);
            "a triangle less"
        }
        1 => {
            triangles.truncate(one);
            "cut off"
        }
        2 => {
            triangles.insert(at, [a, b, c]);
            "a triangle again"
        }
        3 => {
            triangles.insert(at, random.pick(&[[b, c, a], [c, a, b]]));
            "a triangle again, from another corner"
        }
        4 => {
            triangles.insert(at, [c, b, a]);
            "a triangle again, turned"
        }
        5 => {
            triangles[one] = [b, a, c];
            "a triangle turned"
        }
        6 => {
            for k in (1..n).rev() {
                triangles.swap(k, random.below(k + 1));
            }
            "shuffled"
        }
        _ => {
            triangles.iter_mut().for_each(|t| t.rotate_left(1));
            "from another corner"
        }
    }
}

/// A coordinate that is near, at a border or not finite, or a corner that is another's.
fn moved(triangles: &mut [Triangle], random: &mut Random) -> &'static str {
    let one = random.below(triangles.len());
    match random.below(7) {
        0 => {
            // The nearest to a coordinate that there is.
            let up = random.one_in(2);
            let x = coordinate(triangles, random);
            let near = if up { x.next_up() } else { x.next_down() };
            *x = if near.is_finite() { near } else { *x };
            "a corner nearly moved"
        }
        1 | 2 => {
            let [a, b] = random.pick(&[[0, 1], [1, 2], [2, 0], [0, 2]]);
            triangles[one][b] = triangles[one][a];
            "two equal corners"
        }
        3 => {
            let near = random.pick(&[1, 0x8000_0001]);
            for x in triangles.iter_mut().flatten().flatten() {
                if *x == 0.0 && random.one_in(6) {
                    *x = f32::from_bits(near);
                }
            }
            "nearly zero"
        }
        4 | 5 => {
            let bits = random.pick(&INFINITE);
            *coordinate(triangles, random) = f32::from_bits(bits);
            "not finite"
        }
        _ => {
            let x = random.pick(&[f32::MAX, f32::MIN, f32::MIN_POSITIVE, f32::from_bits(1)]);
            *coordinate(triangles, random) = x;
            "a coordinate at its border"
        }
    }
}

/// Zeros of both signs.
fn signed(triangles: &mut [Triangle], random: &mut Random) -> &'static str {
    let how = random.pick(&["zeros as made", "zeros of any sign", "negative zeros"]);
    for x in triangles.iter_mut().flatten().flatten() {
        if *x == 0.0 {
            *x = match how {
                "zeros of any sign" => random.pick(&[0.0, -0.0]),
                "negative zeros" => -0.0,
                _ => *x,
            };
        }
    }
    how
}

// ---- the bytes

fn noise(n: usize, random: &mut Random) -> Vec<u8> {
    (0..n).map(|_| random.bits() as u8).collect()
}

fn around_of(random: &mut Random) -> Around {
    Around {
        header: random.pick(&[
            |_: &mut Random| vec![0; 80],
            |random: &mut Random| noise(80, random),
            |_: &mut Random| [&b"solid outside stone"[..], &[b' '; 61]].concat(),
        ]),
        normal: random.pick(&[
            |_: &mut Random, _: &Triangle| [0.0; 3],
            |random: &mut Random, _: &Triangle| {
                [0; 3].map(|_| f32::from_bits(random.bits() as u32))
            },
            |random: &mut Random, _: &Triangle| f32_nan(random),
            |_: &mut Random, t: &Triangle| t[1],
        ]),
        attribute: random.pick(&[
            |_: &mut Random| [0; 2],
            |random: &mut Random| (random.bits() as u16).to_le_bytes(),
        ]),
    }
}

fn f32_nan(random: &mut Random) -> Corner {
    [0; 3].map(|_| f32::from_bits(random.pick(&INFINITE)))
}

fn set_count(bytes: &mut [u8], count: u32) {
    bytes[80..84].copy_from_slice(&count.to_le_bytes());
}

/// Counts and lengths that do not fit each other, mostly.
fn misfit(bytes: &mut Vec<u8>, random: &mut Random) -> &'static str {
    let n = ((bytes.len() - 84) / 50) as u32;
    match random.below(12) {
        0 => {
            bytes.pop();
            "a byte less"
        }
        1 => {
            bytes.push(random.bits() as u8);
            "a byte more"
        }
        2 => {
            bytes.truncate(bytes.len().saturating_sub(50));
            "50 bytes less"
        }
        3 => {
            bytes.extend(noise(50, random));
            "50 bytes more"
        }
        4 => {
            set_count(bytes, n.wrapping_sub(1));
            "one counted less"
        }
        5 => {
            set_count(bytes, n + 1);
            "one counted more"
        }
        6 => {
            // 50 times this is as long, by 32 bits.
            set_count(bytes, n ^ 1 << 31);
            "a count above 2^31"
        }
        7 => {
            let count = random.pick(&[u32::MAX, 1 << 31, 1 << 16, 0x0100_0000, 85_899_345]);
            set_count(bytes, count);
            "a huge count"
        }
        8 => {
            set_count(bytes, n.swap_bytes());
            "a count from its other end"
        }
        9 => {
            bytes.truncate(random.below(84));
            "a part of the head"
        }
        10 => {
            let n = random.below(bytes.len() + 1);
            bytes.truncate(n);
            "cut anywhere"
        }
        _ => {
            let more = random.pick(&[1, 49, 51, 99, 100, 4096]);
            bytes.extend(noise(more, random));
            "more bytes"
        }
    }
}

/// Any bytes, at times with a count that fits.
fn garbage(random: &mut Random) -> (Vec<u8>, String) {
    let n = random.below(6);
    let long = random.below(400);
    let long = random.pick(&[84 + 50 * n, 84 + 50 * n, 84, 83, 0, long]);
    let mut bytes = noise(long, random);
    if long >= 84 && !random.one_in(4) {
        set_count(&mut bytes, ((long - 84) / 50) as u32);
    }
    (bytes, "garbage".into())
}

/// A file, and what it is.
pub fn any(random: &mut Random) -> (Vec<u8>, String) {
    if random.one_in(20) {
        return garbage(random);
    }
    let (mut triangles, mut told) = shape(random);
    for _ in 0..random.pick(&[0, 0, 0, 0, 1, 1, 1, 2, 3]) {
        if triangles.is_empty() {
            break;
        }
        let what = match random.below(2) {
            0 => rearranged(&mut triangles, random),
            _ => moved(&mut triangles, random),
        };
        told += &format!(", {what}");
    }
    for what in [
        placed(&mut triangles, random),
        signed(&mut triangles, random),
    ] {
        told += &format!(", {what}");
    }
    let mut bytes = file(&triangles, &around_of(random), random);
    if random.one_in(9) {
        let what = misfit(&mut bytes, random);
        told += &format!(", {what}");
    }
    (bytes, told)
}
