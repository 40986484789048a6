//! Lines and planes as the Rust crate of bindings/ makes them, held bit for bit against those that the Rust makes:
//! `carriers [rows of each] [seed]`. Nothing of the static library is linked. The exit status is 1 where any differ.

use std::env;
use std::process::ExitCode;

use gensolid_core::{Precision, Result};
use gensolid_geom::Line;
use gensolid_math::{Frame, Point3, Vec3};
use numbers::random::{Random, Style};
use numbers::told;

#[rustfmt::skip]
#[path = "../../../../bindings/rust/src/directions.rs"]
mod directions;

use directions::Triple;

/// The refusals that the crate's file names, by their numbers.
#[derive(Clone, Copy, PartialEq)]
pub enum Refusal {
    BadArgument = 1,
    Degenerate = 4,
}

/// How many differing rows of a sort are shown.
const SHOWN: u64 = 3;

/// A direction or the refusal's number.
type Answer = std::result::Result<Triple, u64>;

fn three(v: Vec3) -> Triple {
    [v.x, v.y, v.z]
}

fn vector([x, y, z]: Triple) -> Vec3 {
    Vec3::new(x, y, z)
}

fn point(p: Triple) -> Point3 {
    Point3::from_vec(vector(p))
}

fn rusts(answer: Result<Vec3>) -> Answer {
    answer.map(three).map_err(|error| error.code() as u64)
}

fn ours(answer: std::result::Result<Triple, Refusal>) -> Answer {
    answer.map_err(|refusal| refusal as u64)
}

/// A precision from which on the Rust takes its own directions, of length 1, for too short.
fn coarse(precision: &Precision) -> bool {
    precision.linear() > 0.5
}

/// What a row asks, what the Rust answers, and whether by a listed departure.
struct Row {
    given: Vec<Triple>,
    precision: f64,
    expected: Answer,
    listed: bool,
    made: Answer,
}

/// The normal that polyhedron.rs makes of a face's first corners, as its lines compose it.
fn spanned([a, b, c]: [Triple; 3], precision: &Precision) -> (Answer, bool) {
    if ![a, b, c].iter().all(|p| point(*p).is_finite()) {
        return (Err(1), false);
    }
    let way = |p: Triple| (point(p) - point(a)).normalized(precision.linear());
    let (Some(first), Some(second)) = (way(b), way(c)) else {
        return (Err(4), false);
    };
    let Some(normal) = first.cross(second).normalized(precision.angular()) else {
        return (Err(4), false);
    };
    if coarse(precision) {
        return (normal.normalized(0.0).map(three).ok_or(4), true);
    }
    (
        rusts(Frame::new(point(a), normal, first, precision).map(|frame| frame.z())),
        false,
    )
}

fn precision(r: &mut Random) -> Precision {
    loop {
        let style = r.style();
        let linear = if r.one_in(2) {
            0.001
        } else {
            r.float(style).abs()
        };
        if let Ok(precision) = Precision::new(linear, Precision::DEFAULT.angular(), f64::MAX) {
            return precision;
        }
    }
}

fn triple(r: &mut Random, style: Style) -> Triple {
    [(); 3].map(|()| r.float(style))
}

/// Of its own, or some floats beside another.
fn beside(r: &mut Random, p: Triple, style: Style) -> Triple {
    if r.one_in(4) {
        p.map(|x| r.moved(x))
    } else {
        triple(r, style)
    }
}

type Sort = (&'static str, fn(&mut Random) -> Row);

const SORTS: [Sort; 4] = [
    ("line along a way", |r| {
        let (style, precision) = (r.style(), precision(r));
        let given = [triple(r, style), triple(r, style)];
        let line = Line::new(point(given[0]), vector(given[1]), &precision);
        row(
            &given,
            &precision,
            (rusts(line.map(|line| line.direction())), false),
            |[o, v], p| directions::along(o, v, p),
        )
    }),
    ("line through two points", |r| {
        let (style, precision) = (r.style(), precision(r));
        let a = triple(r, style);
        let given = [a, beside(r, a, style)];
        let line = Line::through(point(given[0]), point(given[1]), &precision);
        row(
            &given,
            &precision,
            (rusts(line.map(|line| line.direction())), false),
            |[a, b], p| directions::through(a, b, p),
        )
    }),
    ("plane with a normal", |r| {
        let (style, precision) = (r.style(), precision(r));
        let given = [triple(r, style), triple(r, style)];
        let (origin, normal) = (point(given[0]), vector(given[1]));
        let expected = if coarse(&precision) {
            (
                rusts(Line::new(origin, normal, &precision).map(|line| line.direction())),
                true,
            )
        } else {
            (
                rusts(Frame::from_axis(origin, normal, &precision).map(|frame| frame.z())),
                false,
            )
        };
        row(&given, &precision, expected, |[o, n], p| {
            directions::along(o, n, p)
        })
    }),
    ("plane through three points", |r| {
        let (style, precision) = (r.style(), precision(r));
        let a = triple(r, style);
        let given = [a, beside(r, a, style), beside(r, a, style)];
        row(
            &given,
            &precision,
            spanned(given, &precision),
            directions::spanned,
        )
    }),
];

fn row<const N: usize>(
    given: &[Triple; N],
    precision: &Precision,
    (expected, listed): (Answer, bool),
    make: fn([Triple; N], f64) -> std::result::Result<Triple, Refusal>,
) -> Row {
    let made = ours(make(*given, precision.linear()));
    Row {
        given: given.to_vec(),
        precision: precision.linear(),
        expected,
        listed,
        made,
    }
}

fn same(a: &Answer, b: &Answer) -> bool {
    match (a, b) {
        (Ok(a), Ok(b)) => a.map(told) == b.map(told),
        (Err(a), Err(b)) => a == b,
        _ => false,
    }
}

#[derive(Default)]
struct Tally {
    rows: u64,
    made: u64,
    refused: [u64; 2],
    listed: u64,
    differ: u64,
}

impl Tally {
    fn row(&mut self, name: &str, row: &Row) {
        self.rows += 1;
        self.listed += u64::from(row.listed);
        match row.expected {
            Ok(_) => self.made += 1,
            Err(number) => self.refused[usize::from(number != 1)] += 1,
        }
        if !same(&row.expected, &row.made) {
            self.differ += 1;
            if self.differ <= SHOWN {
                println!(
                    "    differs: {name}: {:?} at {:e}: expected {:?}, ours {:?}",
                    row.given, row.precision, row.expected, row.made
                );
            }
        }
    }

    fn tell(&self, name: &str) {
        let Self {
            rows,
            made,
            refused: [one, four],
            listed,
            differ,
        } = self;
        println!(
            "{name}: {rows} rows, {made} made, {one} refused with 1, {four} with 4; {listed} listed; {differ} differ"
        );
    }
}

/// A maker that divides by the root of the squares' sum, where the Rust has `hypot`: it must be seen.
fn by_root([a, b]: [Triple; 2], precision: f64) -> std::result::Result<Triple, Refusal> {
    directions::through(a, b, precision)?;
    let way = three(point(b) - point(a));
    let length = vector(way).length_squared().sqrt();
    Ok(way.map(|x| x / length))
}

fn main() -> ExitCode {
    let words: Vec<String> = env::args().skip(1).collect();
    let number = |k: usize, default: u64| words.get(k).map_or(Some(default), |w| w.parse().ok());
    let (Some(rows), Some(seed)) = (number(0, 200_000), number(1, 1)) else {
        eprintln!("usage: carriers [rows of each] [seed]");
        return ExitCode::from(2);
    };
    let (mut all, mut differ) = (0, 0);
    for (k, (name, make)) in SORTS.into_iter().enumerate() {
        let mut random = Random::new(seed.wrapping_add((k as u64) << 32));
        let mut tally = Tally::default();
        for _ in 0..rows {
            tally.row(name, &make(&mut random));
        }
        tally.tell(name);
        (all, differ) = (all + tally.rows, differ + tally.differ);
    }
    let mut random = Random::new(seed.wrapping_add((SORTS.len() as u64) << 32));
    let mut seen = 0;
    for _ in 0..rows {
        let given = [
            triple(&mut random, Style::Moderate),
            triple(&mut random, Style::Moderate),
        ];
        let [right, wrong] = [
            directions::through(given[0], given[1], 0.001),
            by_root(given, 0.001),
        ]
        .map(ours);
        seen += u64::from(!same(&right, &wrong));
    }
    println!("a maker that divides by the root of the squares' sum: seen on {seen} of {rows}");
    println!("{all} rows, {differ} differ");
    ExitCode::from(u8::from(differ > 0 || seen == 0))
}
