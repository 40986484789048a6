//! Binary STL of a body: W-209 once more, from the request's words alone, over the faces and points that the Rust's volume goes over.

use std::fmt;

use models::plain::Triple;

use crate::layout::Lent;
use crate::sheets::Stone;

/// What is asked: by an office, of a body, with marks that are short or not, what the slot holds, and the lent bytes; without them the length alone.
#[derive(Clone)]
pub struct Ask {
    pub office: u32,
    pub body: usize,
    pub short: bool,
    pub slot: usize,
    pub bytes: Option<Vec<u8>>,
}

impl fmt::Debug for Ask {
    fn fmt(&self, f: &mut fmt::Formatter) -> fmt::Result {
        let Self {
            office,
            body,
            short,
            slot,
            bytes,
        } = self;
        let lent = bytes.as_ref().map(Vec::len);
        write!(
            f,
            "office {office}, body {body}, short {short}, slot {slot}, bytes {lent:?}"
        )
    }
}

/// The number that is answered, the slot and all lent bytes behind it, and whether the marks are zero.
#[derive(Clone, PartialEq)]
pub struct Answer {
    pub number: u32,
    pub slot: usize,
    pub bytes: Vec<u8>,
    pub cleared: bool,
}

impl fmt::Debug for Answer {
    fn fmt(&self, f: &mut fmt::Formatter) -> fmt::Result {
        let Self {
            number,
            slot,
            bytes,
            cleared,
        } = self;
        let sum = bytes.iter().fold(0u64, |sum, &b| {
            sum.wrapping_mul(1_099_511_628_211).wrapping_add(b.into())
        });
        let shown = &bytes[..bytes.len().min(140)];
        write!(
            f,
            "{number}, slot {slot}, {} bytes of sum {sum:x}, zero {cleared}, {shown:x?}",
            bytes.len()
        )
    }
}

impl Ask {
    /// What the station answers. The marks are lent full, at times more of them than there are faces.
    pub fn ours(&self, lent: &Lent, mark: u8, more: usize) -> Answer {
        let mut marks = vec![mark; lent.room[3] + more];
        if self.short {
            marks.truncate(lent.room[3].saturating_sub(1));
        }
        let mut value = [self.slot];
        let mut bytes = self.bytes.clone().unwrap_or_default();
        let number = match self.bytes {
            Some(_) => lent.write_stl(self.body, &mut marks, &mut bytes, &mut value),
            None => lent.stl_length(self.body, &mut marks, &mut value),
        };
        Answer {
            number,
            slot: value[0],
            bytes,
            cleared: marks.iter().all(|&mark| mark == 0),
        }
    }
}

// ---- the rules

/// What a drawing can be refused for, besides memory that cannot be read.
#[derive(Clone, Copy, Debug, PartialEq)]
pub enum Test {
    Office,
    Marks,
    Volume,
    Bits,
    Bytes,
}

/// What the request says, each where a wrong station says something else.
#[derive(Clone, Copy)]
pub struct Rule {
    pub tests: [Test; 5],
    /// The four bytes of a coordinate, where it has them.
    pub coordinate: fn(f64) -> Option<[u8; 4]>,
    /// Whether every point of the body's walk is asked about.
    pub walked: bool,
    /// Whether a face that is listed again is drawn no more.
    pub once: bool,
    /// The points of a face's fan, by whether it has the shell on its front side.
    pub points: fn(bool, &[Triple]) -> Vec<Triple>,
    pub fan: fn(&[Triple]) -> Vec<[Triple; 3]>,
    /// Of the fins of each face.
    pub count: fn(&[usize]) -> [u8; 4],
    pub header: fn() -> Vec<u8>,
    pub normal: fn(&[Triple; 3]) -> [u8; 12],
    pub attribute: fn(&[Triple; 3]) -> [u8; 2],
    /// Of the bytes of the file, and the lent ones.
    pub enough: fn(usize, usize) -> bool,
}

impl Rule {
    pub const REQUEST: Self = Self {
        tests: [
            Test::Office,
            Test::Marks,
            Test::Volume,
            Test::Bits,
            Test::Bytes,
        ],
        coordinate,
        walked: false,
        once: false,
        points,
        fan,
        count: |fins| (triangles(fins) as u32).to_le_bytes(),
        header: || vec![0; 80],
        normal: |_| [0; 12],
        attribute: |_| [0; 2],
        enough: |file, lent| file <= lent,
    };
}

/// "5 for a coordinate that is not finite or would lose bits"
pub fn coordinate(x: f64) -> Option<[u8; 4]> {
    let narrow = x as f32;
    let same = f64::from(narrow).to_bits() == x.to_bits();
    (same && x.is_finite()).then(|| narrow.to_le_bytes())
}

/// "the fans that volume uses, outward": the Rust reverses the points of a front side.
pub fn points(front: bool, points: &[Triple]) -> Vec<Triple> {
    let mut points = points.to_vec();
    if front {
        points.reverse();
    }
    points
}

/// A fan from the first point.
pub fn fan(points: &[Triple]) -> Vec<[Triple; 3]> {
    let pairs = points[1..].windows(2);
    pairs.map(|pair| [points[0], pair[0], pair[1]]).collect()
}

/// "fins minus two, added over the faces taken"
pub fn triangles(fins: &[usize]) -> usize {
    fins.iter().map(|n| n - 2).sum()
}

// ---- a drawing

/// "an 80-byte header, a 32-bit count, then 50 bytes for each triangle"; none where a coordinate has no bytes.
pub fn file(stone: &Stone, rule: &Rule) -> Option<Vec<u8>> {
    let bytes = |p: &Triple| -> Option<[u8; 12]> {
        let [x, y, z] = p.map(rule.coordinate);
        [x?, y?, z?].concat().try_into().ok()
    };
    if rule.walked && stone.points().iter().any(|p| bytes(p).is_none()) {
        return None;
    }
    let taken = stone.faces().filter(|&(again, ..)| !(rule.once && again));
    let faces: Vec<_> = taken
        .map(|(_, front, points)| (rule.points)(front, points))
        .collect();
    let fins: Vec<usize> = faces.iter().map(Vec::len).collect();
    let mut file = (rule.header)();
    file.extend((rule.count)(&fins));
    for triangle in faces.iter().flat_map(|points| (rule.fan)(points)) {
        file.extend((rule.normal)(&triangle));
        for corner in &triangle {
            file.extend(bytes(corner)?);
        }
        file.extend((rule.attribute)(&triangle));
    }
    Some(file)
}

/// What is answered by a rule, and in words.
pub fn answer(stone: &Stone, ask: &Ask, rule: &Rule) -> (Answer, String) {
    let refused = |number, words: &str| {
        let answer = Answer {
            number,
            slot: ask.slot,
            bytes: ask.bytes.clone().unwrap_or_default(),
            cleared: true,
        };
        (answer, format!("{number} {words}"))
    };
    let (volume, words) = stone.volume();
    // Of a body whose volume is refused, the faces up to the first that it refuses: for stations that test in another order.
    let file = file(stone, rule);
    let lent = ask.bytes.as_ref().map_or(usize::MAX, Vec::len);
    for test in rule.tests {
        match test {
            Test::Office if ask.office > 1 => return refused(1, "office"),
            Test::Marks if ask.short => return refused(8, "marks"),
            Test::Volume if volume != 0 => return refused(volume, &format!("volume {words}")),
            Test::Bits if file.is_none() => return refused(5, "bits"),
            Test::Bytes => match &file {
                Some(file) if !(rule.enough)(file.len(), lent) => return refused(8, "bytes"),
                _ => {}
            },
            _ => {}
        }
    }
    let file = file.expect("it has one");
    let mut bytes = ask.bytes.clone().unwrap_or_default();
    if ask.bytes.is_some() {
        let n = file.len().min(bytes.len());
        bytes[..n].copy_from_slice(&file[..n]);
    }
    let words = if ask.bytes.is_some() {
        "written"
    } else {
        "told"
    };
    let answer = Answer {
        number: 0,
        slot: file.len(),
        bytes,
        cleared: true,
    };
    (answer, words.into())
}
