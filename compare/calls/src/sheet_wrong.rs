//! Wrong stations for the sheet: each goes by another rule than the request's, or does as the station does and then alters the answer. The comparison must see
//! every one of them.

use crate::sheets::{
    Rule, Take, Taken, Test, fan, limit, sixteenths, total, triangles, with_total,
};

#[derive(Clone, Copy)]
pub enum How {
    /// By another rule.
    Rule(fn(&mut Rule)),
    /// Of what is asked, and what is answered.
    Told(fn(&Take, &mut Taken)),
    /// The office is tested before the memory can be read.
    First,
    /// The tables are written to.
    Tables,
}

/// The number of a stone that was taken.
fn number(take: &Take, taken: &Taken) -> Option<i128> {
    (taken.number == 0).then(|| total(&taken.sheet) - total(&take.sheet))
}

/// Puts another total where a stone was taken, of the one before and the stone's number.
fn adds(take: &Take, taken: &mut Taken, sum: fn(i128, i128) -> i128) {
    if let Some(number) = number(take, taken) {
        taken.sheet = with_total(&taken.sheet, sum(total(&take.sheet), number));
    }
}

/// Puts the stone or the largest before it, where a stone was taken: of the stone's number, and of the one before and whether there is one.
fn keeps(take: &Take, taken: &mut Taken, replaces: fn(i64, i64, bool) -> bool) {
    if let Some(number) = number(take, taken) {
        let [stones, _, _, body, before] = take.sheet;
        let largest = if replaces(number as i64, before as i64, stones > 0) {
            [take.body as u64, number as u64]
        } else {
            [body, before]
        };
        taken.sheet[3..].copy_from_slice(&largest);
    }
}

/// Makes one test before another.
fn before(rule: &mut Rule, first: Test, second: Test) {
    let place = |test| rule.tests.iter().position(|&t| t == test);
    let places = [second, first].map(|test| place(test).expect("each test is made"));
    rule.tests[places[0]..=places[1]].rotate_right(1);
}

/// The two's complement of the low word and of the high one.
fn words(total: i128) -> (u64, i64) {
    (total as u64, (total >> 64) as i64)
}

fn joined(low: u64, high: i64) -> i128 {
    i128::from(high) << 64 | i128::from(low)
}

pub const WRONGS: [(&str, How); 55] = [
    (
        "does not reverse the points of a front side",
        How::Rule(|rule| rule.front = fan),
    ),
    (
        "turns the sign of a front side and not its points",
        How::Rule(|rule| rule.front = |points| -fan(points)),
    ),
    (
        "counts a face that is listed twice once",
        How::Rule(|rule| rule.once = true),
    ),
    (
        "takes a half of a sixteenth",
        How::Rule(|rule| {
            rule.sixteenths = |x| {
                let halves = (x * 32.0).fract() == 0.0 && x.abs() <= 2_048.0;
                halves.then_some((x * 16.0) as i128)
            }
        }),
    ),
    (
        "cuts a coordinate to whole sixteenths",
        How::Rule(|rule| rule.sixteenths = |x| sixteenths((x * 16.0).trunc() / 16.0)),
    ),
    (
        "takes a coordinate as near to the grid as 2^-30",
        How::Rule(|rule| {
            rule.sixteenths = |x| {
                let near = (x * 16.0).round();
                sixteenths(near / 16.0).filter(|_| (x * 16.0 - near).abs() < 1.0e-9)
            }
        }),
    ),
    (
        "takes a coordinate of a sixteenth above 2,048 mm",
        How::Rule(|rule| {
            rule.sixteenths = |x| match x.abs() {
                2048.0625 => Some((x * 16.0) as i128),
                _ => sixteenths(x),
            }
        }),
    ),
    (
        "takes a whole coordinate of any size",
        How::Rule(|rule| {
            rule.sixteenths = |x| {
                let whole = (x * 16.0).fract() == 0.0;
                whole.then_some((x * 16.0).clamp(-1.0e6, 1.0e6) as i128)
            }
        }),
    ),
    (
        "takes a negative coordinate of any size",
        How::Rule(|rule| {
            rule.sixteenths = |x| {
                let whole = (x * 16.0).fract() == 0.0;
                (whole && x <= 2_048.0).then_some((x * 16.0).max(-1.0e6) as i128)
            }
        }),
    ),
    (
        "refuses a coordinate of 2,048 mm",
        How::Rule(|rule| rule.sixteenths = |x| sixteenths(x).filter(|&n| n != 32_768)),
    ),
    (
        "refuses a coordinate of -2,048 mm",
        How::Rule(|rule| rule.sixteenths = |x| sixteenths(x).filter(|&n| n != -32_768)),
    ),
    (
        "refuses a negative zero",
        How::Rule(|rule| {
            rule.sixteenths = |x| sixteenths(x).filter(|_| x.to_bits() != 1 << 63);
        }),
    ),
    (
        "takes what is no number for 0",
        How::Rule(|rule| {
            rule.sixteenths = |x| if x.is_nan() { Some(0) } else { sixteenths(x) };
        }),
    ),
    (
        "takes an infinite coordinate for the largest",
        How::Rule(|rule| {
            rule.sixteenths = |x| match x.is_infinite() {
                true => Some(if x > 0.0 { 32_768 } else { -32_768 }),
                false => sixteenths(x),
            };
        }),
    ),
    (
        "asks the grid of points that are in no fan",
        How::Rule(|rule| rule.walked = true),
    ),
    (
        "takes 4,097 triangles",
        How::Rule(|rule| rule.too_many = |fins| triangles(fins) > 4_097),
    ),
    (
        "refuses 4,096 triangles",
        How::Rule(|rule| rule.too_many = |fins| triangles(fins) >= 4_096),
    ),
    (
        "counts the fins in the place of the triangles",
        How::Rule(|rule| rule.too_many = |fins| fins.iter().sum::<usize>() > 4_096),
    ),
    (
        "counts a triangle more for each face",
        How::Rule(|rule| rule.too_many = |fins| triangles(fins) + fins.len() > 4_096),
    ),
    (
        "counts the triangles of each face alone",
        How::Rule(|rule| rule.too_many = |fins| fins.iter().any(|n| n - 2 > 4_096)),
    ),
    (
        "takes a stone onto a full sheet",
        How::Rule(|rule| rule.is_full = |stones| stones > 65_536),
    ),
    (
        "finds a sheet of 65,535 stones full",
        How::Rule(|rule| rule.is_full = |stones| stones >= 65_535),
    ),
    (
        "reads a sheet of 65,537 stones",
        How::Rule(|rule| {
            rule.readable =
                |stones, total| stones <= 65_537 && total.unsigned_abs() <= limit(stones);
        }),
    ),
    (
        "reads the low half of the stones alone",
        How::Rule(|rule| {
            rule.readable = |stones, total| {
                let stones = stones & 0xffff_ffff;
                stones <= 65_536 && total.unsigned_abs() <= limit(stones)
            };
        }),
    ),
    (
        "cannot read a full sheet",
        How::Rule(|rule| {
            rule.readable =
                |stones, total| stones < 65_536 && total.unsigned_abs() <= limit(stones);
        }),
    ),
    (
        "reads a total one above its limit",
        How::Rule(|rule| {
            rule.readable =
                |stones, total| stones <= 65_536 && total.unsigned_abs() <= limit(stones) + 1;
        }),
    ),
    (
        "cannot read a total at its limit",
        How::Rule(|rule| {
            rule.readable = |stones, total| {
                let below = total == 0 || total.unsigned_abs() < limit(stones);
                stones <= 65_536 && below
            };
        }),
    ),
    (
        "cannot read a negative total at its limit",
        How::Rule(|rule| {
            rule.readable = |stones, total| {
                let most = limit(stones) as i128;
                stones <= 65_536 && total <= most && (total == 0 || total > -most)
            };
        }),
    ),
    (
        "reads a negative total of any size",
        How::Rule(|rule| {
            rule.readable = |stones, total| stones <= 65_536 && total <= limit(stones) as i128;
        }),
    ),
    (
        "reads any total of a sheet without stones",
        How::Rule(|rule| {
            rule.readable = |stones, total| {
                stones <= 65_536 && (stones == 0 || total.unsigned_abs() <= limit(stones))
            };
        }),
    ),
    (
        "reads a total by the stones that there will be",
        How::Rule(|rule| {
            rule.readable =
                |stones, total| stones <= 65_536 && total.unsigned_abs() <= limit(stones + 1);
        }),
    ),
    (
        "tests the office before the sheet",
        How::Rule(|rule| before(rule, Test::Office, Test::Sheet)),
    ),
    (
        "tests the marks before the sheet",
        How::Rule(|rule| before(rule, Test::Marks, Test::Sheet)),
    ),
    (
        "tests the marks before the office",
        How::Rule(|rule| before(rule, Test::Marks, Test::Office)),
    ),
    (
        "tests the sheet behind the volume",
        How::Rule(|rule| before(rule, Test::Volume, Test::Sheet)),
    ),
    (
        "tests the grid before the volume",
        How::Rule(|rule| before(rule, Test::Grid, Test::Volume)),
    ),
    (
        "tests the triangles before the volume",
        How::Rule(|rule| before(rule, Test::Triangles, Test::Volume)),
    ),
    (
        "tests the triangles before the grid",
        How::Rule(|rule| before(rule, Test::Triangles, Test::Grid)),
    ),
    (
        "tests a full sheet before the volume",
        How::Rule(|rule| before(rule, Test::Full, Test::Volume)),
    ),
    (
        "tests a full sheet before the grid",
        How::Rule(|rule| before(rule, Test::Full, Test::Grid)),
    ),
    ("tests the office before the tables", How::First),
    ("writes to the tables", How::Tables),
    (
        "keeps the last among equals",
        How::Told(|take, taken| keeps(take, taken, |new, old, is| !is || new >= old)),
    ),
    (
        "finds the largest without its sign",
        How::Told(|take, taken| {
            keeps(take, taken, |new, old, is| !is || new as u64 > old as u64);
        }),
    ),
    (
        "finds the largest by its size",
        How::Told(|take, taken| {
            keeps(take, taken, |new, old, is| {
                !is || new.unsigned_abs() > old.unsigned_abs()
            });
        }),
    ),
    (
        "finds a largest in a sheet without stones",
        How::Told(|take, taken| keeps(take, taken, |new, old, _| new > old)),
    ),
    (
        "names the first body as the largest",
        How::Told(|take, taken| {
            if taken.number == 0 && taken.sheet[3..] != take.sheet[3..] {
                taken.sheet[3] = 0;
            }
        }),
    ),
    (
        "loses the carry of the total",
        How::Told(|take, taken| {
            adds(take, taken, |total, number| {
                let ((low, high), (by, sign)) = (words(total), words(number));
                joined(low.wrapping_add(by), high.wrapping_add(sign))
            });
        }),
    ),
    (
        "loses the sign of a number in the high word",
        How::Told(|take, taken| {
            adds(take, taken, |total, number| {
                let ((low, high), (by, _)) = (words(total), words(number));
                let (low, carry) = low.overflowing_add(by);
                joined(low, high.wrapping_add(carry.into()))
            });
        }),
    ),
    (
        "rounds a number to a float",
        How::Told(|take, taken| adds(take, taken, |total, number| total + number as f64 as i128)),
    ),
    (
        "gives the volume, not six times it",
        How::Told(|take, taken| adds(take, taken, |total, number| total + number / 6)),
    ),
    (
        "does not count the stone",
        How::Told(|take, taken| taken.sheet[0] = take.sheet[0]),
    ),
    (
        "counts a stone that it refuses",
        How::Told(|_, taken| {
            if taken.number != 0 {
                taken.sheet[0] = taken.sheet[0].wrapping_add(1);
            }
        }),
    ),
    (
        "clears the largest of a sheet without stones, refused or not",
        How::Told(|take, taken| {
            if taken.number != 0 && take.sheet[0] == 0 {
                taken.sheet[3..].fill(0);
            }
        }),
    ),
    (
        "names the largest of a stone that it refuses",
        How::Told(|take, taken| {
            if taken.number != 0 {
                taken.sheet[3] = take.body as u64;
            }
        }),
    ),
];
