//! The stone sheet in whole numbers: W-201 once more, from the request's words alone, over the Rust's own tables. What the Rust refuses to measure is refused as
//! it does; the number of a stone is that of the faces and fans that its float volume goes over, in whole numbers of 128 bits.

use std::collections::HashSet;

use gensolid_topo::{FaceId, Model, ShellId};
use models::offices::body_for;
use models::original::{self, Told};
use models::plain::Triple;

use crate::layout::Lent;
use crate::offices::Station;
use crate::ours::WROTE;

/// The five words: the stones, the total in two's complement, low word first, and the largest stone so far, its body and its number.
pub type Sheet = [u64; 5];

/// A point in sixteenths of a millimetre.
pub type Point = [i128; 3];

/// "the exact total in two words"
pub fn total(sheet: &Sheet) -> i128 {
    (u128::from(sheet[2]) << 64 | u128::from(sheet[1])) as i128
}

pub fn with_total(sheet: &Sheet, total: i128) -> Sheet {
    let [stones, _, _, body, number] = *sheet;
    [stones, total as u64, (total >> 64) as u64, body, number]
}

/// What is asked: by an office, of a body, with marks that are short or not, on a sheet.
#[derive(Clone, Copy, Debug)]
pub struct Take {
    pub office: u32,
    pub body: usize,
    pub short: bool,
    pub sheet: Sheet,
}

/// The number that is answered, and the sheet behind it.
#[derive(Clone, Copy, Debug, PartialEq)]
pub struct Taken {
    pub number: u32,
    pub sheet: Sheet,
}

impl Take {
    /// What the station answers. The marks are lent full, at times more of them than there are faces, and must come back zero.
    pub fn ours(&self, lent: &Lent, mark: u8, more: usize) -> Taken {
        let mut marks = vec![mark; lent.room[3] + more];
        if self.short {
            marks.truncate(lent.room[3].saturating_sub(1));
        }
        let mut sheet = self.sheet;
        let number = lent.take(self.body, &mut marks, &mut sheet);
        let cleared = marks.iter().all(|&mark| mark == 0);
        Taken {
            number: if cleared { number } else { WROTE },
            sheet,
        }
    }
}

// ---- the rules

/// What a stone can be refused for, besides memory that cannot be read.
#[derive(Clone, Copy, Debug, PartialEq)]
pub enum Test {
    Sheet,
    Office,
    Marks,
    Volume,
    Grid,
    Triangles,
    Full,
}

/// What the request says, each where a wrong station says something else.
#[derive(Clone, Copy)]
pub struct Rule {
    pub tests: [Test; 7],
    /// Of the stones and the total of a sheet.
    pub readable: fn(u64, i128) -> bool,
    pub sixteenths: fn(f64) -> Option<i128>,
    /// Whether the grid is asked of every point of the body's walk.
    pub walked: bool,
    /// Whether a face that is listed again counts no more.
    pub once: bool,
    /// The number of a face that has the shell on its front side, of the points of its loop.
    pub front: fn(&[Point]) -> i128,
    /// Of the fins of each face.
    pub too_many: fn(&[usize]) -> bool,
    pub is_full: fn(u64) -> bool,
}

impl Rule {
    pub const REQUEST: Self = Self {
        tests: [
            Test::Sheet,
            Test::Office,
            Test::Marks,
            Test::Volume,
            Test::Grid,
            Test::Triangles,
            Test::Full,
        ],
        readable: |stones, total| stones <= 65_536 && total.unsigned_abs() <= limit(stones),
        sixteenths,
        walked: false,
        once: false,
        front: |points| fan(&reversed(points)),
        too_many: |fins| triangles(fins) > 4_096,
        is_full: |stones| stones >= 65_536,
    };
}

/// "a total above 3·2^60 in size per stone"
pub fn limit(stones: u64) -> u128 {
    (3 << 60) * u128::from(stones)
}

/// "Coordinates that are whole sixteenths of a millimetre, at most 2,048 mm in size"
pub fn sixteenths(x: f64) -> Option<i128> {
    let whole = (x * 16.0).fract() == 0.0;
    (whole && x.abs() <= 2_048.0).then_some((x * 16.0) as i128)
}

/// How many triangles faces of so many fins are fanned into.
pub fn triangles(fins: &[usize]) -> usize {
    fins.iter().map(|n| n - 2).sum()
}

pub fn reversed(points: &[Point]) -> Vec<Point> {
    points.iter().rev().copied().collect()
}

fn determinant([a, b, c]: [Point; 3]) -> i128 {
    a[0] * (b[1] * c[2] - b[2] * c[1])
        + a[1] * (b[2] * c[0] - b[0] * c[2])
        + a[2] * (b[0] * c[1] - b[1] * c[0])
}

/// Each triangle of a fan with the origin is a tetrahedron, whose volume is a sixth of the corners' determinant.
fn tetrahedra(points: &[Point]) -> impl Iterator<Item = i128> {
    let pairs = points[1..].windows(2);
    pairs.map(|pair| determinant([points[0], pair[0], pair[1]]))
}

/// Six times the volume between the origin and a fan.
pub fn fan(points: &[Point]) -> i128 {
    tetrahedra(points).sum()
}

// ---- a stone

/// A face that the volume goes over: whether it was listed before, whether the shell is its front, and its points in the order of the loop.
struct Side {
    again: bool,
    front: bool,
    points: Vec<Triple>,
}

/// What the Rust says of a body: its float volume, or what that is refused for, and the faces that it goes over, up to the first that it refuses.
pub struct Stone {
    volume: Told,
    sides: Vec<Side>,
    /// All points of the walk.
    walked: Vec<Triple>,
}

fn side(model: &Model, shell: ShellId, id: FaceId) -> Option<Side> {
    let face = model.face(id).ok()?;
    let [front, back] = [face.front, face.back].map(|side| side == Some(shell));
    let [owner] = face.loops[..] else {
        return None;
    };
    let fins = &model.loop_(owner).ok()?.fins;
    if front == back || fins.len() < 3 {
        return None;
    }
    let start = |fin: &_| {
        let (start, _) = model.fin_vertices(*fin).ok()?;
        let point = model.vertex(start?).ok()?.point;
        Some([point.x, point.y, point.z])
    };
    Some(Side {
        again: false,
        front,
        points: fins.iter().map(start).collect::<Option<_>>()?,
    })
}

impl Stone {
    pub fn of(station: Station, office: u32, body: usize) -> Self {
        let Station {
            model,
            names,
            plain,
        } = station;
        let named = body_for(plain, office, body);
        let id = names.bodies[named];
        let mut stone = Self {
            volume: original::volume(model, names, named),
            sides: Vec::new(),
            walked: Vec::new(),
        };
        let regions = model.body(id).map_or(&[][..], |r| &r.regions);
        let regions = regions.iter().filter_map(|&id| model.region(id).ok());
        let shells = regions.filter(|r| r.solid).flat_map(|r| &r.shells);
        let shells = shells.filter_map(|&id| Some((id, model.shell(id).ok()?)));
        let faces = shells.flat_map(|(id, r)| r.faces.iter().map(move |&face| (id, face)));
        let faces: Vec<_> = faces.collect();
        let mut listed = HashSet::new();
        let sides = faces.iter().map_while(|&(shell, id)| {
            let again = !listed.insert(id);
            let side = side(model, shell, id)?;
            Some(Side { again, ..side })
        });
        stone.sides = sides.collect();
        let whole = stone.sides.len() == faces.len();
        assert!(stone.volume.refused() || whole, "it goes over all faces");
        let walked = model.body_vertices(id).unwrap_or_default();
        let walked = walked.into_iter().filter_map(|id| model.vertex(id).ok());
        stone.walked = walked.map(|r| [r.point.x, r.point.y, r.point.z]).collect();
        stone
    }

    /// The sides' points in sixteenths, where each has them.
    fn whole(&self, rule: &Rule) -> Option<Vec<(bool, Vec<Point>)>> {
        let three = |p: &Triple| -> Option<Point> {
            let [x, y, z] = p.map(rule.sixteenths);
            Some([x?, y?, z?])
        };
        if rule.walked && self.walked.iter().any(|p| three(p).is_none()) {
            return None;
        }
        let points = |side: &Side| side.points.iter().map(three).collect::<Option<Vec<_>>>();
        self.counted(rule)
            .map(|side| Some((side.front, points(side)?)))
            .collect()
    }

    /// The sides, or each face the first time that it is listed.
    fn counted(&self, rule: &Rule) -> impl Iterator<Item = &Side> {
        let once = rule.once;
        self.sides.iter().filter(move |side| !(once && side.again))
    }

    fn fins(&self, rule: &Rule) -> Vec<usize> {
        self.counted(rule).map(|side| side.points.len()).collect()
    }

    /// "six times the volume as a whole number of cubic sixteenths", of each side.
    fn numbers(&self, rule: &Rule) -> Option<Vec<i128>> {
        let number = |(front, points): (bool, Vec<Point>)| match front {
            true => (rule.front)(&points),
            false => fan(&points),
        };
        Some(self.whole(rule)?.into_iter().map(number).collect())
    }

    /// What the volume is refused with, and in words; 0 where it is not.
    pub fn volume(&self) -> (u32, &str) {
        (self.volume.numbers[0] as u32, &self.volume.words)
    }

    /// The faces that the volume goes over, in its order: whether it is listed again, whether the shell is its front, and the points of its loop.
    pub fn faces(&self) -> impl Iterator<Item = (bool, bool, &[Triple])> {
        self.sides
            .iter()
            .map(|side| (side.again, side.front, &side.points[..]))
    }

    /// All points of the walk.
    pub fn points(&self) -> &[Triple] {
        &self.walked
    }

    /// The stone's number, where the request has one for it.
    pub fn number(&self) -> Option<i128> {
        let numbers = self.numbers(&Rule::REQUEST)?;
        (!self.volume.refused()).then(|| numbers.iter().sum())
    }

    pub fn triangles(&self) -> usize {
        triangles(&self.fins(&Rule::REQUEST))
    }

    /// Whether it has faces by their front side, and whether it has a face more than once.
    pub fn kinds(&self) -> [bool; 2] {
        [
            self.sides.iter().any(|side| side.front),
            self.sides.iter().any(|side| side.again),
        ]
    }

    /// What the first coordinate off the grid is.
    pub fn off_grid(&self) -> &'static str {
        let coordinates = self.sides.iter().flat_map(|side| &side.points).flatten();
        let off = coordinates.copied().find(|&x| sixteenths(x).is_none());
        match off {
            None => "none",
            Some(x) if !x.is_finite() => "not finite",
            Some(x) if x.abs() == 2048.0625 => "a sixteenth too large",
            Some(x) if x.abs() > 2_048.0 => "too large",
            Some(x) if (x * 32.0).fract() == 0.0 => "a half of a sixteenth",
            Some(_) => "between sixteenths",
        }
    }

    /// The Rust's float volume, and the same by the whole numbers: a side's sum is exact in floats where it stays below 2^53, and the rest of the Rust's expression
    /// is a division by six and a sum over the sides. None where a side's is not.
    pub fn floats(&self) -> Option<[u64; 2]> {
        let rule = Rule::REQUEST;
        let &[0, volume] = &self.volume.numbers[..] else {
            return None;
        };
        let mut sum = 0.0;
        for (front, points) in self.whole(&rule)? {
            let points = if front { reversed(&points) } else { points };
            let most: u128 = tetrahedra(&points).map(i128::unsigned_abs).sum();
            if most >= 1 << 53 {
                return None;
            }
            sum += fan(&points) as f64 / 4_096.0 / 6.0;
        }
        Some([volume, sum.to_bits()])
    }

    /// What is answered by a rule, and in words.
    pub fn taken(&self, take: &Take, rule: &Rule) -> (Taken, String) {
        let sheet = take.sheet;
        for test in rule.tests {
            if let Some((number, words)) = self.refused(test, take, rule) {
                return (Taken { number, sheet }, words);
            }
        }
        let number: i128 = self.numbers(rule).expect("it is on the grid").iter().sum();
        // "keeps the number of stones, the exact total in two words and the largest stone so far (signed; none at first)"
        let mut after = with_total(&sheet, total(&sheet) + number);
        after[0] += 1;
        let largest = (sheet[0] > 0).then_some(i128::from(sheet[4] as i64));
        if largest.is_none_or(|largest| number > largest) {
            after[3] = take.body as u64;
            after[4] = number as u64;
        }
        let taken = Taken {
            number: 0,
            sheet: after,
        };
        (taken, "taken".into())
    }

    fn refused(&self, test: Test, take: &Take, rule: &Rule) -> Option<(u32, String)> {
        let [stones, ..] = take.sheet;
        let (fails, number, words) = match test {
            Test::Sheet if stones > 65_536 => (
                !(rule.readable)(stones, total(&take.sheet)),
                9,
                "stones of the sheet",
            ),
            Test::Sheet => (
                !(rule.readable)(stones, total(&take.sheet)),
                9,
                "total of the sheet",
            ),
            Test::Office => (take.office > 1, 1, "office"),
            Test::Marks => (take.short, 8, "marks"),
            Test::Volume => {
                let number = self.volume.numbers[0] as u32;
                return (number != 0).then(|| (number, format!("volume {}", self.volume.words)));
            }
            Test::Grid => (self.whole(rule).is_none(), 5, "grid"),
            Test::Triangles => ((rule.too_many)(&self.fins(rule)), 8, "triangles"),
            Test::Full => ((rule.is_full)(stones), 8, "full sheet"),
        };
        fails.then(|| (number, format!("{number} {words}")))
    }
}
