//! Wrong stations for the drawing: each goes by another rule than the request's, or does as the station does and then alters the answer. The comparison must see
//! every one of them.

use models::plain::Triple;

use crate::stl::{Answer, Ask, Rule, Test, coordinate, fan, points, triangles};

#[derive(Clone, Copy)]
pub enum How {
    /// By another rule.
    Rule(fn(&mut Rule)),
    /// Of what is asked, and what is answered.
    Told(fn(&Ask, &mut Answer)),
    /// The office is tested before the memory can be read.
    First,
    /// The tables are written to.
    Tables,
}

/// Makes one test before another.
fn before(rule: &mut Rule, first: Test, second: Test) {
    let place = |test| rule.tests.iter().position(|&t| t == test);
    let places = [second, first].map(|test| place(test).expect("each test is made"));
    rule.tests[places[0]..=places[1]].rotate_right(1);
}

/// Puts the bytes that were lent back behind a place of each triangle, so many of them.
fn left(ask: &Ask, answer: &mut Answer, at: usize, n: usize) {
    if let (0, Some(lent)) = (answer.number, &ask.bytes) {
        for k in (84..answer.slot).step_by(50) {
            answer.bytes[k + at..k + at + n].copy_from_slice(&lent[k + at..k + at + n]);
        }
    }
}

/// Writes a byte of a refused drawing.
fn spilled(answer: &mut Answer, number: u32, at: usize) {
    if answer.number == number {
        if let Some(byte) = answer.bytes.get_mut(at) {
            *byte = byte.wrapping_add(1);
        }
    }
}

fn rounded(x: f64) -> Option<[u8; 4]> {
    Some((x as f32).to_le_bytes())
}

/// The way that a triangle looks, in four bytes for each axis.
fn normal([a, b, c]: &[Triple; 3]) -> [u8; 12] {
    let [v, w] = [b, c].map(|p| [0, 1, 2].map(|k| p[k] - a[k]));
    let way = [
        v[1] * w[2] - v[2] * w[1],
        v[2] * w[0] - v[0] * w[2],
        v[0] * w[1] - v[1] * w[0],
    ];
    let bytes = way.map(|x| (x as f32).to_le_bytes()).concat();
    bytes.try_into().expect("twelve bytes")
}

pub const WRONGS: [(&str, How); 41] = [
    (
        "does not reverse the points of a front side",
        How::Rule(|rule| rule.points = |_, l| l.to_vec()),
    ),
    (
        "reverses the points of a back side",
        How::Rule(|rule| rule.points = |front, l| points(!front, l)),
    ),
    (
        "reverses the points of every side",
        How::Rule(|rule| rule.points = |_, l| points(true, l)),
    ),
    (
        "turns the triangles of a front side about their first corner",
        How::Rule(|rule| {
            rule.points = |front, l| {
                let mut l = l.to_vec();
                if front {
                    l[1..].reverse();
                }
                l
            }
        }),
    ),
    (
        "draws a strip in place of a fan",
        How::Rule(|rule| rule.fan = |l| l.windows(3).map(|t| [t[0], t[1], t[2]]).collect()),
    ),
    (
        "fans from the last point",
        How::Rule(|rule| {
            rule.fan = |l| {
                let last = l[l.len() - 1];
                let pairs = l[..l.len() - 1].windows(2);
                pairs.map(|pair| [last, pair[0], pair[1]]).collect()
            }
        }),
    ),
    (
        "leaves the last triangle of a fan out",
        How::Rule(|rule| {
            rule.fan = |l| {
                let mut all = fan(l);
                all.pop();
                all
            }
        }),
    ),
    (
        "closes a fan with a triangle more",
        How::Rule(|rule| {
            rule.fan = |l| {
                let mut all = fan(l);
                all.push([l[0], l[l.len() - 1], l[0]]);
                all
            }
        }),
    ),
    (
        "counts fins",
        How::Rule(|rule| rule.count = |fins| (fins.iter().sum::<usize>() as u32).to_le_bytes()),
    ),
    (
        "counts faces",
        How::Rule(|rule| rule.count = |fins| (fins.len() as u32).to_le_bytes()),
    ),
    (
        "counts with the highest byte first",
        How::Rule(|rule| rule.count = |fins| (triangles(fins) as u32).to_be_bytes()),
    ),
    ("writes no count", How::Rule(|rule| rule.count = |_| [0; 4])),
    (
        "begins the header with a word",
        How::Rule(|rule| {
            rule.header = || {
                let mut header = vec![0; 80];
                header[..5].copy_from_slice(b"solid");
                header
            }
        }),
    ),
    (
        "fills the header with blanks",
        How::Rule(|rule| rule.header = || vec![b' '; 80]),
    ),
    ("writes normals", How::Rule(|rule| rule.normal = normal)),
    (
        "writes an attribute",
        How::Rule(|rule| rule.attribute = |_| [1, 0]),
    ),
    (
        "leaves the attribute's bytes as found",
        How::Told(|ask, answer| left(ask, answer, 48, 2)),
    ),
    (
        "leaves the normal's bytes as found",
        How::Told(|ask, answer| left(ask, answer, 0, 12)),
    ),
    (
        "leaves the header as found",
        How::Told(|ask, answer| {
            if let (0, Some(lent)) = (answer.number, &ask.bytes) {
                answer.bytes[..80].copy_from_slice(&lent[..80]);
            }
        }),
    ),
    (
        "rounds in place of 5",
        How::Rule(|rule| rule.coordinate = rounded),
    ),
    (
        "rounds a finite coordinate in place of 5",
        How::Rule(|rule| {
            rule.coordinate = |x| rounded(x).filter(|_| x.is_finite() && (x as f32).is_finite())
        }),
    ),
    (
        "takes an infinite coordinate",
        How::Rule(|rule| {
            rule.coordinate = |x| {
                if x.is_infinite() {
                    rounded(x)
                } else {
                    coordinate(x)
                }
            }
        }),
    ),
    (
        "takes what is no number for 0",
        How::Rule(|rule| {
            rule.coordinate = |x| {
                if x.is_nan() {
                    Some([0; 4])
                } else {
                    coordinate(x)
                }
            }
        }),
    ),
    (
        "takes a coordinate beyond binary32 for its largest",
        How::Rule(|rule| {
            rule.coordinate = |x| {
                let largest = x.is_finite() && x.abs() > f64::from(f32::MAX);
                let most = f32::MAX.copysign(x as f32).to_le_bytes();
                if largest { Some(most) } else { coordinate(x) }
            }
        }),
    ),
    (
        "refuses the largest of binary32",
        How::Rule(|rule| {
            rule.coordinate = |x| coordinate(x).filter(|_| x.abs() < f64::from(f32::MAX))
        }),
    ),
    (
        "refuses the subnormals of binary32",
        How::Rule(|rule| {
            rule.coordinate = |x| coordinate(x).filter(|_| !(x as f32).is_subnormal())
        }),
    ),
    (
        "takes the subnormals of binary32 for 0",
        How::Rule(|rule| {
            rule.coordinate = |x| {
                let small = (x as f32).is_subnormal();
                coordinate(x).map(|bytes| if small { [0; 4] } else { bytes })
            }
        }),
    ),
    (
        "rounds below the smallest normal number of binary32",
        How::Rule(|rule| {
            rule.coordinate = |x| {
                let small = x.abs() < f64::from(f32::MIN_POSITIVE);
                if small { rounded(x) } else { coordinate(x) }
            }
        }),
    ),
    (
        "writes no sign of a zero",
        How::Rule(|rule| rule.coordinate = |x| coordinate(x + 0.0)),
    ),
    (
        "writes coordinates with the highest byte first",
        How::Rule(|rule| {
            rule.coordinate = |x| {
                coordinate(x).map(|mut bytes| {
                    bytes.reverse();
                    bytes
                })
            }
        }),
    ),
    (
        "asks about every point of the walk",
        How::Rule(|rule| rule.walked = true),
    ),
    (
        "draws a face that is listed twice once",
        How::Rule(|rule| rule.once = true),
    ),
    (
        "tests the bits before the volume",
        How::Rule(|rule| before(rule, Test::Bits, Test::Volume)),
    ),
    (
        "tests the bytes before the bits",
        How::Rule(|rule| {
            before(rule, Test::Bytes, Test::Bits);
            rule.coordinate = |x| coordinate(x).or(Some([9; 4]));
        }),
    ),
    (
        "takes a byte too few",
        How::Rule(|rule| rule.enough = |file, lent| file <= lent.saturating_add(1)),
    ),
    (
        "asks for a byte more",
        How::Rule(|rule| rule.enough = |file, lent| file < lent),
    ),
    (
        "writes a byte before the 8",
        How::Told(|_, answer| spilled(answer, 8, 0)),
    ),
    (
        "writes a byte before the 5",
        How::Told(|_, answer| spilled(answer, 5, 80)),
    ),
    (
        "writes behind the end of the file",
        How::Told(|_, answer| {
            if answer.number == 0 {
                let end = answer.slot;
                spilled(answer, 0, end);
            }
        }),
    ),
    (
        "tells a length without the head",
        How::Told(|_, answer| {
            if answer.number == 0 {
                answer.slot -= 84;
            }
        }),
    ),
    (
        "tells a length that is refused",
        How::Told(|_, answer| {
            if answer.number != 0 {
                answer.slot = 0;
            }
        }),
    ),
];

/// Those that are seen beside the answers.
pub const BESIDE: [(&str, How); 2] = [
    ("tests the office before 9", How::First),
    ("writes to the tables", How::Tables),
];
