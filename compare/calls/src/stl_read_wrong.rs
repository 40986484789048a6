//! Wrong stations for the reading of binary STL: each goes by another rule than the request's, or does as the station does and then alters the answer. The comparison
//! must see every one of them.

use models::plain::{Kind, Triple};

use crate::layout::{LISTS, Lent};
use crate::stl_read::{
    Answer, Ask, Key, Refused, Rule, Solid, Test, Triangle, corners, fits, key, used,
};

#[derive(Clone, Copy)]
pub enum How {
    /// By another rule.
    Rule(fn(&mut Rule)),
    /// Of what is asked, what is answered.
    Told(fn(&Asked, &mut Answer)),
    /// The office is tested before the memory can be read.
    First,
    /// What cannot be read is taken to be read.
    Tables,
}

/// What is asked, of which memory, and the records that the request has for it, or the refusal.
pub struct Asked<'a> {
    pub ask: &'a Ask,
    pub lent: &'a Lent,
    pub found: &'a Result<Solid, Refused>,
}

/// Makes one test before another.
fn before(rule: &mut Rule, first: Test, second: Test) {
    let place = |test| rule.tests.iter().position(|&t| t == test);
    let places = [second, first].map(|test| place(test).expect("each test is made"));
    rule.tests[places[0]..=places[1]].rotate_right(1);
}

/// Alters the words of each new record of a table.
fn each(asked: &Asked, given: &mut Answer, k: usize, alter: fn(&mut [u32])) {
    if let Ok(solid) = asked.found {
        let first = solid.used[k];
        for i in first..first + solid.new_records()[k] {
            let [at, end] = [i, i + 1].map(|i| given.lent.word_at(k, i));
            alter(&mut given.lent.words[at..end]);
        }
    }
}

/// Puts back what was behind the fields of a record, or behind a list's end, of each new record of a list's table.
fn left(asked: &Asked, given: &mut Answer, j: usize) {
    if let Ok(solid) = asked.found {
        let (k, length, limit, _) = LISTS[j];
        let first = solid.used[k];
        for i in first..first + solid.new_records()[k] {
            let at = given.lent.word_at(k, i) + length;
            let behind = at + 1 + given.lent.words[at] as usize..at + 1 + limit;
            given.lent.words[behind.clone()].copy_from_slice(&asked.lent.words[behind]);
        }
    }
}

/// Puts back a float of each new record of a table.
fn float_left(asked: &Asked, given: &mut Answer, k: usize, place: usize) {
    if let Ok(solid) = asked.found {
        let first = solid.used[k];
        for i in first..first + solid.new_records()[k] {
            let at = given.lent.real_at(k, i) + place;
            given.lent.reals[at] = asked.lent.reals[at];
        }
    }
}

/// Alters a count behind a file that was read.
fn counted(asked: &Asked, given: &mut Answer, k: usize) {
    if asked.found.is_ok() {
        given.lent.words[k] = asked.lent.words[k];
    }
}

/// A slot behind the used ones of a table.
fn unused(lent: &Lent, k: usize) -> Option<usize> {
    let used = used(lent)[k];
    (used < lent.room[k]).then_some(used)
}

/// Writes to the next slot of a table where a file is refused with 8.
fn filled(asked: &Asked, given: &mut Answer, k: usize) {
    if given.number == 8
        && let Some(i) = unused(asked.lent, k)
    {
        let at = given.lent.word_at(k, i);
        given.lent.words[at] = given.lent.words[at].wrapping_add(1);
    }
}

fn masked(x: f64) -> u64 {
    u64::from((x as f32).to_bits() >> 1)
}

fn near(corner: &Triple, step: f64) -> Key {
    corner.map(|x| ((x / step).round() + 0.0).to_bits())
}

fn collinear([a, b, c]: &Triangle) -> bool {
    let [v, w] = [b, c].map(|p| [0, 1, 2].map(|k| p[k] - a[k]));
    let way = [
        v[1] * w[2] - v[2] * w[1],
        v[2] * w[0] - v[0] * w[2],
        v[0] * w[1] - v[1] * w[0],
    ];
    way == [0.0; 3]
}

fn coordinates(part: &[u8]) -> impl Iterator<Item = f32> {
    part[..48]
        .chunks_exact(4)
        .map(|four| f32::from_le_bytes(four.try_into().expect("four bytes")))
}

/// Of each table: asks for a slot more of it, or for none, writes to it before it refuses, does not count what is new.
macro_rules! tables {
    ($($k:literal $name:literal),*) => {
        [$(
            (
                concat!("asks for one slot more of the ", $name),
                How::Rule(|rule| {
                    rule.room = |k, [used, new, slots]| used + new + usize::from(k == $k) <= slots;
                }),
            ),
            (
                concat!("does not ask for room among the ", $name),
                How::Rule(|rule| rule.room = |k, [used, new, slots]| k == $k || used + new <= slots),
            ),
            (
                concat!("writes to the ", $name, " before an 8"),
                How::Told(|asked, given| filled(asked, given, $k)),
            ),
            (
                concat!("does not count the new ", $name),
                How::Told(|asked, given| counted(asked, given, $k)),
            ),
        )*]
    };
}

pub const TABLES: [(&str, How); 32] = tables![
    0 "bodies", 1 "regions", 2 "shells", 3 "faces", 4 "loops", 5 "fins", 6 "edges", 7 "vertices"
];

/// Of the vertices.
pub const CORNERS: [(&str, How); 21] = [
    (
        "joins corners that are nearly equal",
        How::Rule(|rule| rule.key = |p, _| p.map(|x| if x == 0.0 { 0 } else { masked(x) })),
    ),
    (
        "joins corners by the precision",
        How::Rule(|rule| rule.key = |p, precision| near(p, precision)),
    ),
    (
        "joins corners by a part of the precision",
        How::Rule(|rule| rule.key = |p, precision| near(p, precision / 1.0e6)),
    ),
    (
        "joins the subnormals with zero",
        How::Rule(|rule| {
            rule.key = |p, _| {
                let flushed = p.map(|x| if (x as f32).is_normal() { x } else { 0.0 });
                key(&flushed)
            }
        }),
    ),
    (
        "keeps the zeros apart",
        How::Rule(|rule| {
            rule.key = |p, _| p.map(f64::to_bits);
        }),
    ),
    (
        "keeps the zeros of vertices apart, not those of a triangle",
        How::Rule(|rule| {
            rule.key = |p, _| p.map(f64::to_bits);
            rule.flat = |[a, b, c], _| a == b || b == c || c == a;
        }),
    ),
    (
        "keeps the zeros of a triangle apart, not those of vertices",
        How::Rule(|rule| {
            rule.flat = |t, _| {
                let [a, b, c] = t.map(|p| p.map(f64::to_bits));
                a == b || b == c || c == a
            };
        }),
    ),
    (
        "takes opposite numbers for equal",
        How::Rule(|rule| rule.key = |p, _| p.map(|x| x.abs().to_bits())),
    ),
    (
        "stores the last zero met",
        How::Rule(|rule| rule.kept = |_, corner| corner),
    ),
    (
        "stores no sign of a zero",
        How::Rule(|rule| {
            rule.corners = |part| corners(part).map(|p| p.map(|x| x + 0.0));
        }),
    ),
    (
        "stores a negative zero wherever one is met",
        How::Rule(|rule| {
            rule.kept = |had, corner| {
                [0, 1, 2].map(|k| {
                    if had[k] == 0.0 && corner[k].is_sign_negative() {
                        -0.0
                    } else {
                        had[k]
                    }
                })
            };
        }),
    ),
    (
        "joins corners by two axes",
        How::Rule(|rule| {
            rule.flat = |t, _| {
                let [a, b, c] = t.map(|p| key(&p));
                a == b || b == c || c == a
            };
            rule.key = |p, _| [key(p)[0], key(p)[1], 0];
        }),
    ),
    (
        "uses vertices that are in the tables",
        How::Rule(|rule| rule.old = |lent| 0..used(lent)[7]),
    ),
    (
        "uses the last vertex of the tables",
        How::Rule(|rule| rule.old = |lent| used(lent)[7].saturating_sub(1)..used(lent)[7]),
    ),
    (
        "uses vertices of unused slots",
        How::Rule(|rule| rule.old = |lent| used(lent)[7]..lent.room[7]),
    ),
    (
        "takes the subnormals for zero",
        How::Rule(|rule| {
            rule.corners = |part| {
                let small = |x: f64| x != 0.0 && (x as f32).is_subnormal();
                corners(part).map(|p| p.map(|x| if small(x) { 0.0f64.copysign(x) } else { x }))
            }
        }),
    ),
    (
        "reads normals as a corner",
        How::Rule(|rule| {
            rule.corners = |part| {
                let moved = [&[0; 12], &part[..36]].concat();
                corners(&moved)
            }
        }),
    ),
    (
        "reads coordinates with the highest byte first",
        How::Rule(|rule| {
            rule.corners = |part| {
                let mut part = part[..48].to_vec();
                part.chunks_exact_mut(4).for_each(<[u8]>::reverse);
                corners(&part)
            }
        }),
    ),
    (
        "takes the axes in another order",
        How::Rule(|rule| rule.corners = |part| corners(part).map(|[x, y, z]| [y, z, x])),
    ),
    (
        "rounds a coordinate by a bit",
        How::Rule(|rule| {
            rule.corners = |part| {
                let even = |x: f64| f64::from_bits(x.to_bits() & !(1 << 29));
                corners(part).map(|p| p.map(|x| if x.is_finite() { even(x) } else { x }))
            }
        }),
    ),
    (
        "numbers the vertices from a triangle's last corner",
        How::Rule(|rule| {
            rule.corners = |part| {
                let [a, b, c] = corners(part);
                [c, b, a]
            };
            rule.round = |[c, b, a]| [a, b, c];
        }),
    ),
];

/// Of the edges, fins and loops.
pub const EDGES: [(&str, How); 21] = [
    (
        "has edges run from the higher id",
        How::Rule(|rule| rule.runs = |from, to| [from.max(to), from.min(to)]),
    ),
    (
        "has edges run as they are met",
        How::Rule(|rule| rule.runs = |from, to| [from, to]),
    ),
    (
        "makes an edge for each ordered pair",
        How::Rule(|rule| {
            rule.pair = |from, to, _| [from, to, 0];
        }),
    ),
    (
        "makes an edge for each fin",
        How::Rule(|rule| rule.pair = |from, to, fin| [from, to, fin]),
    ),
    (
        "makes a new edge for a third fin",
        How::Told(|asked, given| {
            if let Ok(solid) = asked.found
                && solid.sides.iter().any(|side| side.fins.len() > 2)
            {
                given.lent.words[6] += 1;
            }
        }),
    ),
    (
        "lets an edge have a ninth fin",
        How::Rule(|rule| rule.most = 9),
    ),
    (
        "lets an edge have any number of fins",
        How::Rule(|rule| rule.most = usize::MAX),
    ),
    (
        "refuses an edge's eighth fin",
        How::Rule(|rule| rule.most = 7),
    ),
    (
        "refuses an edge's third fin",
        How::Rule(|rule| rule.most = 2),
    ),
    (
        "refuses an edge that is used once",
        How::Told(|asked, given| {
            if let Ok(solid) = asked.found
                && solid.sides.iter().any(|side| side.fins.len() == 1)
            {
                *given = asked.ask.untouched(asked.lent, 4);
            }
        }),
    ),
    (
        "begins a loop at its second corner",
        How::Rule(|rule| rule.round = |[a, b, c]| [b, c, a]),
    ),
    (
        "begins a loop at its last corner",
        How::Rule(|rule| rule.round = |[a, b, c]| [c, a, b]),
    ),
    (
        "turns a loop about",
        How::Rule(|rule| rule.round = |[a, b, c]| [a, c, b]),
    ),
    (
        "takes the triangles from the last",
        How::Rule(|rule| {
            rule.order = |mut triangles| {
                triangles.reverse();
                triangles
            }
        }),
    ),
    (
        "takes a repeated triangle once",
        How::Rule(|rule| {
            rule.order = |triangles| {
                let mut met: Vec<Triangle> = Vec::new();
                for t in triangles {
                    if !met.contains(&t) {
                        met.push(t);
                    }
                }
                met
            }
        }),
    ),
    (
        "leaves the last triangle out",
        How::Rule(|rule| {
            rule.order = |mut triangles| {
                triangles.pop();
                triangles
            }
        }),
    ),
    (
        "exchanges the senses of fins",
        How::Told(|asked, given| each(asked, given, 5, |words| words[2] ^= 1)),
    ),
    (
        "has all fins positive",
        How::Told(|asked, given| each(asked, given, 5, |words| words[2] = 0)),
    ),
    (
        "marks a pcurve on fins",
        How::Told(|asked, given| each(asked, given, 5, |words| words[3] = 1)),
    ),
    (
        "lists the fins of an edge from the last",
        How::Told(|asked, given| {
            each(asked, given, 6, |words| {
                let n = words[7] as usize;
                words[8..8 + n].reverse();
            })
        }),
    ),
    (
        "lists no fins of the edges",
        How::Told(|asked, given| each(asked, given, 6, |words| words[7..].fill(0))),
    ),
];

/// Of the other records, and what stands in them.
pub const RECORDS: [(&str, How); 34] = [
    (
        "makes a sheet",
        How::Told(|asked, given| each(asked, given, 0, |words| words[0] = Kind::Sheet as u32)),
    ),
    (
        "makes a general body",
        How::Told(|asked, given| each(asked, given, 0, |words| words[0] = Kind::General as u32)),
    ),
    (
        "makes a body of office 0",
        How::Told(|asked, given| each(asked, given, 0, |words| words[1] = 0)),
    ),
    (
        "makes a body of the other office",
        How::Told(|asked, given| each(asked, given, 0, |words| words[1] ^= 1)),
    ),
    (
        "has the void second in the body's list",
        How::Told(|asked, given| each(asked, given, 0, |words| words.swap(3, 4))),
    ),
    (
        "makes the solid region first",
        How::Told(|asked, given| each(asked, given, 1, |words| words[1] ^= 1)),
    ),
    (
        "lists one region",
        How::Told(|asked, given| {
            each(asked, given, 0, |words| {
                words[2] = 1;
                words[4] = 0;
            })
        }),
    ),
    (
        "makes two void regions",
        How::Told(|asked, given| each(asked, given, 1, |words| words[1] = 0)),
    ),
    (
        "has regions name body 0",
        How::Told(|asked, given| each(asked, given, 1, |words| words[0] = 0)),
    ),
    (
        "exchanges the regions' shells",
        How::Told(|asked, given| {
            if let Ok(solid) = asked.found {
                let [a, b] = [0, 1].map(|k| given.lent.word_at(1, solid.used[1] + k) + 3);
                given.lent.words.swap(a, b);
            }
        }),
    ),
    (
        "exchanges the regions that the shells name",
        How::Told(|asked, given| {
            if let Ok(solid) = asked.found {
                let [a, b] = [0, 1].map(|k| given.lent.word_at(2, solid.used[2] + k));
                given.lent.words.swap(a, b);
            }
        }),
    ),
    (
        "lists the faces in the void's shell alone",
        How::Told(|asked, given| {
            if let Ok(solid) = asked.found {
                let at = given.lent.word_at(2, solid.used[2] + 1);
                given.lent.words[at + 1..at + 514].fill(0);
            }
        }),
    ),
    (
        "lists the faces in the solid's shell alone",
        How::Told(|asked, given| {
            if let Ok(solid) = asked.found {
                let at = given.lent.word_at(2, solid.used[2]);
                given.lent.words[at + 1..at + 514].fill(0);
            }
        }),
    ),
    (
        "lists the faces from the last",
        How::Told(|asked, given| {
            each(asked, given, 2, |words| {
                let n = words[1] as usize;
                words[2..2 + n].reverse();
            })
        }),
    ),
    (
        "has the solid's shell in front of a face",
        How::Told(|asked, given| each(asked, given, 3, |words| words.swap(1, 3))),
    ),
    (
        "has no shell in front of a face",
        How::Told(|asked, given| each(asked, given, 3, |words| words[..2].fill(0))),
    ),
    (
        "has no shell at the back of a face",
        How::Told(|asked, given| each(asked, given, 3, |words| words[2..4].fill(0))),
    ),
    (
        "gives a face a surface",
        How::Told(|asked, given| each(asked, given, 3, |words| words[4] = 1)),
    ),
    (
        "gives a face a negative sense",
        How::Told(|asked, given| each(asked, given, 3, |words| words[6] = 1)),
    ),
    (
        "has loops name the first face",
        How::Told(|asked, given| each(asked, given, 4, |words| words[0] = 0)),
    ),
    (
        "gives an edge a curve",
        How::Told(|asked, given| each(asked, given, 6, |words| words[4] = 1)),
    ),
    (
        "gives an edge a tolerance of its own",
        How::Told(|asked, given| each(asked, given, 6, |words| words[6] = 1)),
    ),
    (
        "gives a vertex a tolerance of its own",
        How::Told(|asked, given| each(asked, given, 7, |words| words[0] = 1)),
    ),
    (
        "leaves an edge's float as found",
        How::Told(|asked, given| float_left(asked, given, 6, 0)),
    ),
    (
        "leaves a vertex's last float as found",
        How::Told(|asked, given| float_left(asked, given, 7, 3)),
    ),
    (
        "leaves what is behind a body's list as found",
        How::Told(|asked, given| left(asked, given, 0)),
    ),
    (
        "leaves what is behind a region's list as found",
        How::Told(|asked, given| left(asked, given, 1)),
    ),
    (
        "leaves what is behind a shell's list of faces as found",
        How::Told(|asked, given| left(asked, given, 2)),
    ),
    (
        "leaves what is behind a shell's list of wire edges as found",
        How::Told(|asked, given| left(asked, given, 3)),
    ),
    (
        "leaves what is behind a shell's list of acorn vertices as found",
        How::Told(|asked, given| left(asked, given, 4)),
    ),
    (
        "leaves what is behind a face's list as found",
        How::Told(|asked, given| left(asked, given, 5)),
    ),
    (
        "leaves what is behind a loop's list as found",
        How::Told(|asked, given| left(asked, given, 6)),
    ),
    (
        "leaves what is behind an edge's list as found",
        How::Told(|asked, given| left(asked, given, 7)),
    ),
    (
        "leaves the id of no surface as found",
        How::Told(|asked, given| {
            if let Ok(solid) = asked.found {
                for i in solid.used[3]..solid.used[3] + solid.faces() {
                    let at = given.lent.word_at(3, i) + 5;
                    given.lent.words[at] = asked.lent.words[at];
                }
            }
        }),
    ),
];

/// Of what is refused, and with which number.
pub const REFUSALS: [(&str, How); 40] = [
    (
        "takes a length that is at least enough",
        How::Rule(|rule| rule.fits = |count, n| 84 + 50 * count as usize <= n),
    ),
    (
        "takes a length that is a byte more",
        How::Rule(|rule| rule.fits = |count, n| fits(count, n) || fits(count, n.wrapping_sub(1))),
    ),
    (
        "takes a length that is less",
        How::Rule(|rule| rule.fits = |count, n| 84 + 50 * count as usize >= n),
    ),
    (
        "takes the bytes of a length by fifty",
        How::Rule(|rule| {
            rule.fits = |count, n| n >= 84 && count as usize == (n - 84) / 50;
        }),
    ),
    (
        "takes a length by 32 bits",
        How::Rule(|rule| {
            rule.fits = |count, n| count.wrapping_mul(50).wrapping_add(84) == n as u32;
        }),
    ),
    (
        "takes any count",
        How::Rule(|rule| {
            rule.count = |_| u32::MAX;
            rule.fits = |_, n| n >= 84 && (n - 84) % 50 == 0;
        }),
    ),
    (
        "reads the count with the highest byte first",
        How::Rule(|rule| rule.count = u32::from_be_bytes),
    ),
    (
        "reads two bytes of the count",
        How::Rule(|rule| rule.count = |four| u32::from(u16::from_le_bytes([four[0], four[1]]))),
    ),
    (
        "refuses a count of 0",
        How::Rule(|rule| rule.fits = |count, n| count > 0 && fits(count, n)),
    ),
    (
        "refuses a header that begins with a word",
        How::Told(|asked, given| {
            if asked.ask.bytes.starts_with(b"solid") {
                *given = asked.ask.untouched(asked.lent, 9);
            }
        }),
    ),
    (
        "refuses an attribute",
        How::Rule(|rule| {
            rule.finite =
                |part, t| part[48..] == [0; 2] && t.iter().flatten().all(|x| x.is_finite())
        }),
    ),
    (
        "refuses a normal that is not finite",
        How::Rule(|rule| rule.finite = |part, _| coordinates(part).all(f32::is_finite)),
    ),
    (
        "takes an infinite coordinate",
        How::Rule(|rule| rule.finite = |_, t| !t.iter().flatten().any(|x| x.is_nan())),
    ),
    (
        "takes a coordinate that is no number",
        How::Rule(|rule| rule.finite = |_, t| !t.iter().flatten().any(|x| x.is_infinite())),
    ),
    (
        "looks at the first corner alone for 5",
        How::Rule(|rule| rule.finite = |_, t| t[0].iter().all(|x| x.is_finite())),
    ),
    (
        "looks at all but the last coordinate for 5",
        How::Rule(|rule| {
            rule.finite = |_, t| t.iter().flatten().take(8).all(|x| x.is_finite());
        }),
    ),
    (
        "refuses the largest of binary32",
        How::Rule(|rule| {
            rule.finite = |_, t| t.iter().flatten().all(|x| x.abs() < f64::from(f32::MAX));
        }),
    ),
    (
        "refuses subnormals",
        How::Rule(|rule| {
            rule.finite = |_, t| {
                let small = |x: &f64| x.is_finite() && (*x as f32).is_subnormal();
                t.iter().flatten().all(|x| x.is_finite() && !small(x))
            }
        }),
    ),
    (
        "refuses sizes above 2^40",
        How::Rule(|rule| {
            rule.finite = |_, t| t.iter().flatten().all(|x| x.abs() <= 1_099_511_627_776.0);
        }),
    ),
    (
        "takes two equal corners",
        How::Rule(|rule| rule.flat = |_, _| false),
    ),
    (
        "looks at neighbouring corners alone for 1",
        How::Rule(|rule| rule.flat = |_, [a, b, c]| a == b || b == c),
    ),
    (
        "looks at the first corner alone for 1",
        How::Rule(|rule| rule.flat = |_, [a, b, c]| a == b || c == a),
    ),
    (
        "refuses three equal corners alone",
        How::Rule(|rule| rule.flat = |_, [a, b, c]| a == b && b == c),
    ),
    (
        "refuses a triangle that is flat",
        How::Rule(|rule| {
            rule.flat = |t, [a, b, c]| a == b || b == c || c == a || collinear(t);
        }),
    ),
    (
        "passes over a triangle with two equal corners",
        How::Rule(|rule| {
            rule.flat = |_, _| false;
            rule.order = |triangles| {
                let apart = |t: &Triangle| {
                    let [a, b, c] = t.map(|p| key(&p));
                    a != b && b != c && c != a
                };
                triangles.into_iter().filter(apart).collect()
            }
        }),
    ),
    (
        "tests 1 before 5",
        How::Rule(|rule| before(rule, Test::Corners, Test::Finite)),
    ),
    (
        "tests 5 and 1 triangle by triangle",
        How::Rule(|rule| rule.tests[2..4].fill(Test::Each)),
    ),
    (
        "tests 8 before 1",
        How::Rule(|rule| before(rule, Test::Room, Test::Corners)),
    ),
    (
        "tests 8 before 5",
        How::Rule(|rule| before(rule, Test::Room, Test::Finite)),
    ),
    (
        "tests the office after 5",
        How::Rule(|rule| before(rule, Test::Finite, Test::Office)),
    ),
    (
        "tests the office before the length",
        How::Rule(|rule| before(rule, Test::Office, Test::Length)),
    ),
    (
        "tests the office at the end",
        How::Rule(|rule| rule.tests[1..].rotate_left(1)),
    ),
    (
        "takes any office",
        How::Rule(|rule| rule.tests[1] = Test::Length),
    ),
    (
        "asks for twice the vertices",
        How::Rule(|rule| {
            rule.room = |k, [used, new, slots]| used + if k == 7 { 2 * new } else { new } <= slots
        }),
    ),
    (
        "asks for curves and surfaces",
        How::Rule(|rule| {
            rule.room = |k, [used, new, slots]| used + usize::from(k > 7) + new <= slots;
        }),
    ),
    (
        "takes a full table for a 9",
        How::Told(|_, given| {
            if given.number == 8 {
                given.number = 9;
            }
        }),
    ),
    (
        "writes to the slot at a refusal",
        How::Told(|asked, given| {
            if given.number != 0 {
                given.slot = asked.lent.words.first().copied().unwrap_or(0);
            }
        }),
    ),
    (
        "tells the number of bodies",
        How::Told(|asked, given| given.slot += u32::from(asked.found.is_ok())),
    ),
    (
        "tells no id",
        How::Told(|asked, given| {
            if asked.found.is_ok() {
                given.slot = asked.ask.slot;
            }
        }),
    ),
    (
        "writes a float before it refuses",
        How::Told(|asked, given| {
            if asked.found.is_err()
                && let Some(id) = unused(asked.lent, 7)
            {
                let at = given.lent.real_at(7, id);
                let bits = given.lent.reals[at].to_bits();
                given.lent.reals[at] = f64::from_bits(bits ^ 1);
            }
        }),
    ),
];

/// Of what was there before.
pub const OTHERS: [(&str, How); 6] = [
    (
        "writes a surface",
        How::Told(|asked, given| {
            if asked.found.is_ok() && unused(asked.lent, 9).is_some() {
                given.lent.words[9] += 1;
            }
        }),
    ),
    (
        "writes a curve",
        How::Told(|asked, given| {
            if asked.found.is_ok() && unused(asked.lent, 8).is_some() {
                given.lent.words[8] += 1;
            }
        }),
    ),
    (
        "alters the precision",
        How::Told(|asked, given| {
            if asked.found.is_ok() {
                given.lent.reals[0] = given.lent.reals[0].next_up();
            }
        }),
    ),
    (
        "clears the slot behind the last new vertex",
        How::Told(|asked, given| {
            if asked.found.is_ok()
                && let Some(id) = unused(&given.lent, 7)
            {
                let at = given.lent.real_at(7, id);
                given.lent.reals[at..at + 4].fill(0.0);
            }
        }),
    ),
    (
        "clears the slot behind the last new loop",
        How::Told(|asked, given| {
            if asked.found.is_ok()
                && let Some(id) = unused(&given.lent, 4)
            {
                let at = given.lent.word_at(4, id);
                given.lent.words[at..at + 1026].fill(0);
            }
        }),
    ),
    (
        "writes over the last vertex that was there",
        How::Told(|asked, given| {
            if let Ok(solid) = asked.found
                && let (Some(id), Some([x, ..])) =
                    (solid.used[7].checked_sub(1), solid.points.first())
            {
                let at = given.lent.real_at(7, id);
                given.lent.reals[at] = *x;
            }
        }),
    ),
];

/// Those that are seen on memory that cannot be read.
pub const UNREADABLE: [(&str, How); 2] = [
    ("tests the office before 9", How::First),
    ("reads into what it cannot read", How::Tables),
];

pub fn wrongs() -> Vec<(&'static str, How)> {
    [
        &CORNERS[..],
        &EDGES,
        &RECORDS,
        &REFUSALS,
        &TABLES,
        &OTHERS,
        &UNREADABLE,
    ]
    .concat()
}
