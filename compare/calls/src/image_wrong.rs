//! Wrong stations for the images: each does as the station does and then alters the answer, the bytes or the memory. The comparison must see
//! every one of them.

use crate::image::{
    Carrier, Kept, MARKS, MOST, SECOND_BODY, VERSION_MARK, VERSION_RECORD, begins, encode,
};
use crate::images::{How, expected, put};
use crate::layout::{LISTS, Lent, VERSION};

/// Where record i of table k begins in the image of what the memory holds.
fn place(lent: &Lent, k: usize, i: usize) -> usize {
    Kept::of(lent).place(k, i)
}

/// The first record of a table that something is so of.
fn first(lent: &Lent, k: usize, is_so: impl Fn(usize) -> bool) -> Option<usize> {
    (0..lent.words[k] as usize).find(|&i| is_so(i))
}

/// Takes an image that is refused where one change mends it: the change is tried at each place.
fn mended(number: u32, lent: &mut Lent, image: &[u8], mend: fn(&mut [u8], usize) -> bool) -> u32 {
    if number != 9 || image.len() > 800 {
        return number;
    }
    for at in 0..image.len() {
        let mut other = image.to_vec();
        if mend(&mut other, at)
            && let Ok(kept) = expected(lent, &other)
        {
            kept.over(lent);
            return 0;
        }
    }
    number
}

/// The image as another one, which is taken instead.
fn taken_for(number: u32, lent: &mut Lent, other: &[u8]) -> u32 {
    match expected(lent, other) {
        Ok(kept) if number == 9 => {
            kept.over(lent);
            0
        }
        _ => number,
    }
}

/// Refuses what is accepted, where something is so of the model.
fn refuses(before: &Lent, number: u32, lent: &mut Lent, is_so: impl Fn(&Kept) -> bool) -> u32 {
    if number == 0 && is_so(&Kept::of(lent)) {
        lent.clone_from(before);
        return 9;
    }
    number
}

/// What an image says of the records of a table.
fn count(image: &[u8], k: usize) -> usize {
    let at = begins(image) + 2 + 4 * k;
    let count = image.get(at..at + 4).and_then(|n| n.try_into().ok());
    count.map_or(0, |n| u32::from_le_bytes(n) as usize)
}

fn eight(image: &[u8], at: usize) -> Option<[u8; 8]> {
    image.get(at..at + 8)?.try_into().ok()
}

/// What an image says behind a version's record of so many bytes, where it begins with such a mark.
fn behind(image: &[u8], n: usize) -> Option<&[u8]> {
    image.strip_prefix(&VERSION_MARK[..]).and_then(|_| image.get(n..))
}

/// The image as one of version 2, of what is said behind the version's record.
fn as_second(rest: &[u8]) -> Vec<u8> {
    [&VERSION_RECORD[..], rest].concat()
}

/// Where the office of each body that is there stands among the words.
fn offices(lent: &Lent) -> Vec<usize> {
    let bodies = 0..lent.words[0] as usize;
    bodies.map(|i| lent.word_at(0, i) + 1).collect()
}

/// Puts a mark over that of each body that something is so of.
fn marked(lent: &Lent, bytes: &mut [u8], mark: &[u8; 2], is_so: fn(u32) -> bool) {
    for (i, at) in offices(lent).into_iter().enumerate() {
        if is_so(lent.words[at]) {
            put(bytes, place(lent, 0, i), mark);
        }
    }
}

pub const WRONGS: [(&str, How); 66] = [
    (
        "gives a length one too great",
        How::Length(|_, number, length| {
            *length += usize::from(number == 0);
            number
        }),
    ),
    (
        "gives the length of what cannot be read",
        How::Length(|_, number, length| {
            if number == 9 {
                *length = 50;
            }
            0
        }),
    ),
    (
        "refuses and leaves a length",
        How::Length(|_, number, length| {
            if number != 0 {
                *length = 0;
            }
            number
        }),
    ),
    (
        "flips a bit of the last byte",
        How::Write(|_, number, bytes, length| {
            if number == 0 {
                bytes[*length - 1] ^= 1;
            }
            number
        }),
    ),
    (
        "writes a length one too great",
        How::Write(|_, number, _, length| {
            *length += usize::from(number == 0);
            number
        }),
    ),
    (
        "clears the bytes behind the image",
        How::Write(|_, number, bytes, length| {
            if number == 0 {
                bytes[*length..].fill(0);
            }
            number
        }),
    ),
    (
        "writes what has no room, as far as there is some",
        How::Write(|lent, number, bytes, _| {
            if number == 8 {
                put(bytes, 0, &encode(&Kept::of(lent)));
            }
            number
        }),
    ),
    (
        "writes a length where there is no room",
        How::Write(|lent, number, _, length| {
            if number == 8 {
                *length = encode(&Kept::of(lent)).len();
            }
            number
        }),
    ),
    (
        "gives 9 where there is no room for the image",
        How::Write(|_, number, _, _| if number == 8 { 9 } else { number }),
    ),
    (
        "asks for room before the tables are read",
        How::Write(|_, number, bytes, _| {
            if number == 9 && bytes.len() < 50 {
                8
            } else {
                number
            }
        }),
    ),
    (
        "writes a mark of what cannot be read",
        How::Write(|_, number, bytes, _| {
            if number == 9 {
                put(bytes, 0, b"PR");
            }
            number
        }),
    ),
    (
        "writes the id of none",
        How::Write(|lent, number, bytes, _| {
            let fields = |i| lent.word_at(3, i);
            if number == 0
                && let Some(i) = first(lent, 3, |i| lent.words[fields(i)] == 0)
            {
                put(
                    bytes,
                    place(lent, 3, i) + 6,
                    &lent.words[fields(i) + 1].to_le_bytes(),
                );
            }
            number
        }),
    ),
    (
        "writes the float of a session's tolerance",
        How::Write(|lent, number, bytes, _| {
            if number == 0
                && let Some(i) = first(lent, 7, |i| lent.words[lent.word_at(7, i)] == 0)
            {
                put(
                    bytes,
                    place(lent, 7, i) + 30,
                    &lent.reals[lent.real_at(7, i) + 3].to_le_bytes(),
                );
            }
            number
        }),
    ),
    (
        "writes the floats of what is other",
        How::Write(|lent, number, bytes, _| {
            if number == 0
                && let Some(i) = first(lent, 8, |i| lent.words[lent.word_at(8, i)] == 2)
            {
                put(
                    bytes,
                    place(lent, 8, i) + 6,
                    &lent.reals[lent.real_at(8, i)].to_le_bytes(),
                );
            }
            number
        }),
    ),
    (
        "writes a NaN as it lies",
        How::Write(|lent, number, bytes, _| {
            if number == 0 {
                for i in 0..lent.words[7] as usize {
                    let x = lent.reals[lent.real_at(7, i)];
                    put(bytes, place(lent, 7, i) + 6, &x.to_le_bytes());
                }
            }
            number
        }),
    ),
    (
        "loses the sign of a zero that it writes",
        How::Write(|lent, number, bytes, _| {
            if number == 0
                && let Some(i) = first(lent, 7, |i| lent.reals[lent.real_at(7, i)] == 0.0)
            {
                put(bytes, place(lent, 7, i) + 6, &[0; 8]);
            }
            number
        }),
    ),
    (
        "writes the surfaces before the curves",
        How::Write(|lent, number, bytes, length| {
            if number == 0 {
                let from = place(lent, 8, 0);
                let n = 54 * lent.words[8] as usize;
                bytes[from..*length].rotate_left(n);
            }
            number
        }),
    ),
    (
        "writes big ends first",
        How::Write(|_, number, bytes, _| {
            if number == 0 {
                bytes[2..6].reverse();
            }
            number
        }),
    ),
    (
        "clears the slots that are not used",
        How::Read(|_, number, lent, _| {
            if number == 0 {
                for k in 0..10 {
                    let (from, to) = (
                        lent.word_at(k, lent.words[k] as usize),
                        lent.word_at(k, lent.room[k]),
                    );
                    lent.words[from..to].fill(0);
                }
            }
            number
        }),
    ),
    (
        "clears a float of a slot that is not used",
        How::Read(|_, number, lent, _| {
            for k in 6..10 {
                let used = lent.words.get(k).map_or(0, |&n| n as usize);
                if number == 0 && used < lent.room[k] {
                    let at = lent.real_at(k, used);
                    lent.reals[at] = 0.0;
                }
            }
            number
        }),
    ),
    (
        "clears the place behind a list's end",
        How::Read(|_, number, lent, _| {
            if number == 0 {
                for (k, place, limit, _) in LISTS {
                    if lent.words[k] > 0 {
                        let at = lent.word_at(k, 0) + place;
                        let n = lent.words[at] as usize;
                        if n < limit {
                            lent.words[at + 1 + n] = 0;
                        }
                    }
                }
            }
            number
        }),
    ),
    (
        "accepts what it refuses with 9",
        How::Read(|_, number, _, _| if number == 9 { 0 } else { number }),
    ),
    (
        "accepts what it has no room for",
        How::Read(|_, number, _, _| if number == 8 { 0 } else { number }),
    ),
    (
        "gives 9 where there is no room for the model",
        How::Read(|_, number, _, _| if number == 8 { 9 } else { number }),
    ),
    (
        "asks for room before the image is read",
        How::Read(|_, number, lent, image| {
            if number == 9 && (0..10).any(|k| count(image, k) > lent.room[k]) {
                8
            } else {
                number
            }
        }),
    ),
    (
        "gives 8 for more records than an image may have",
        How::Read(|_, number, _, image| {
            if number == 9 && (0..10).any(|k| count(image, k) == MOST[k] + 1) {
                8
            } else {
                number
            }
        }),
    ),
    (
        "writes the counts before it refuses",
        How::Read(|_, number, lent, image| {
            if number != 0 {
                for (k, word) in lent.words.iter_mut().take(10).enumerate() {
                    *word = count(image, k) as u32;
                }
            }
            number
        }),
    ),
    (
        "writes the precision before it refuses",
        How::Read(|_, number, lent, image| {
            if number != 0
                && let (Some(real), Some(new)) = (lent.reals.first_mut(), eight(image, begins(image) + 42))
            {
                *real = f64::from_le_bytes(new);
            }
            number
        }),
    ),
    (
        "tests the old model",
        How::Read(|before, number, lent, _| refuses(before, number, lent, |_| !before.readable())),
    ),
    (
        "keeps the old precision",
        How::Read(|before, number, lent, _| {
            if number == 0 {
                lent.reals[0] = before.reals[0];
            }
            number
        }),
    ),
    (
        "leaves the id of none",
        How::Read(|before, number, lent, _| {
            for i in 0..if number == 0 {
                lent.words[6] as usize
            } else {
                0
            } {
                let at = lent.word_at(6, i);
                if lent.words[at + 2] == 0 {
                    lent.words[at + 3] = before.words[at + 3];
                }
            }
            number
        }),
    ),
    (
        "leaves the float of a session's tolerance",
        How::Read(|before, number, lent, _| {
            for i in 0..if number == 0 {
                lent.words[6] as usize
            } else {
                0
            } {
                let (at, real) = (lent.word_at(6, i), lent.real_at(6, i));
                if lent.words[at + 6] == 0 {
                    lent.reals[real] = before.reals[real];
                }
            }
            number
        }),
    ),
    (
        "loses the sign of a zero that it reads",
        How::Read(|_, number, lent, _| {
            for i in 0..if number == 0 {
                lent.words[8] as usize
            } else {
                0
            } {
                let real = lent.real_at(8, i);
                lent.reals[real..real + 6]
                    .iter_mut()
                    .for_each(|x| *x += 0.0);
            }
            number
        }),
    ),
    (
        "refuses an id that names no record",
        How::Read(|before, number, lent, _| {
            refuses(before, number, lent, |kept| {
                kept.fins
                    .iter()
                    .any(|fin| fin.edge as usize >= kept.edges.len())
            })
        }),
    ),
    (
        "refuses the negative zero for a tolerance",
        How::Read(|before, number, lent, _| {
            refuses(before, number, lent, |kept| {
                kept.edges
                    .iter()
                    .any(|edge| edge.tolerance.is_some_and(|t| t.is_sign_negative()))
            })
        }),
    ),
    (
        "refuses what is not a number",
        How::Read(|before, number, lent, _| {
            refuses(before, number, lent, |kept| {
                kept.curves
                    .iter()
                    .any(|curve| matches!(curve, Carrier::Line(six) if six[0].is_nan()))
            })
        }),
    ),
    (
        "takes bytes that are left over",
        How::Read(|_, number, lent, image| match image {
            [front @ .., _] => taken_for(number, lent, front),
            _ => number,
        }),
    ),
    (
        "takes an image that was cut off between two records",
        How::Read(|_, number, lent, image| {
            // With one record fewer, or two, of the last table that it has some of.
            let last = (0..10)
                .rev()
                .map(|k| begins(image) + 2 + 4 * k)
                .find(|&at| image.get(at).is_some_and(|&n| n > 0));
            let mut other = image.to_vec();
            for _ in 0..2 {
                if let Some(at) = last {
                    other[at] = other[at].saturating_sub(1);
                }
                if taken_for(number, lent, &other) != number {
                    return 0;
                }
            }
            number
        }),
    ),
    (
        "takes an image that was cut off before its last byte",
        How::Read(|_, number, lent, image| taken_for(number, lent, &[image, &[0]].concat())),
    ),
    (
        "takes any precision",
        How::Read(|_, number, lent, image| {
            let mut other = image.to_vec();
            put(&mut other, begins(image) + 42, &1.0f64.to_le_bytes());
            taken_for(number, lent, &other)
        }),
    ),
    (
        "takes any mark",
        How::Read(|_, number, lent, image| {
            mended(number, lent, image, |other, at| {
                // A mark with one letter wrong: the letter of the one mark that it can be.
                let Some(old) = other.get(at..at + 2).map(|old| [old[0], old[1]]) else {
                    return false;
                };
                let mark = MARKS
                    .into_iter()
                    .find(|mark| mark[1] == old[1] && mark[0] != old[0]);
                mark.is_some_and(|mark| {
                    put(other, at, mark);
                    true
                })
            })
        }),
    ),
    (
        "takes a NaN of another pattern",
        How::Read(|_, number, lent, image| {
            mended(number, lent, image, |other, at| {
                let nan = eight(other, at)
                    .map(f64::from_le_bytes)
                    .is_some_and(f64::is_nan);
                put(
                    other,
                    at,
                    if nan {
                        &[0, 0, 0, 0, 0, 0, 0xf8, 0x7f]
                    } else {
                        &[]
                    },
                );
                nan
            })
        }),
    ),
    (
        "takes a none whose id is not 0",
        How::Read(|_, number, lent, image| {
            mended(number, lent, image, |other, at| {
                let none = eight(other, at).is_some_and(|pair| pair[..4] == [0; 4]);
                put(other, at, if none { &[0; 8] } else { &[] });
                none
            })
        }),
    ),
    (
        "takes the negative zero for a float that says nothing",
        How::Read(|_, number, lent, image| {
            mended(number, lent, image, |other, at| {
                let zero = eight(other, at) == Some((-0.0f64).to_le_bytes());
                put(other, at, if zero { &[0; 8] } else { &[] });
                zero
            })
        }),
    ),
    (
        "gives a length without the version's record",
        How::Length(|lent, number, length| {
            if number == 0 && lent.words[VERSION] == 2 {
                *length -= 6;
            }
            number
        }),
    ),
    (
        "leaves the version's record out",
        How::Write(|lent, number, bytes, length| {
            if number == 0 && lent.words[VERSION] == 2 {
                bytes.copy_within(6..*length, 0);
                *length -= 6;
            }
            number
        }),
    ),
    (
        "writes a version's record for a model of version 1",
        How::Write(|lent, number, bytes, length| {
            if number == 0 && lent.words[VERSION] == 1 && bytes.len() >= *length + 6 {
                bytes.copy_within(..*length, 6);
                put(bytes, 0, &[0x56, 0x4e, 1, 0, 0, 0]);
                *length += 6;
            }
            number
        }),
    ),
    (
        "writes the version's record behind the precision's",
        How::Write(|lent, number, bytes, _| {
            if number == 0 && lent.words[VERSION] == 2 {
                bytes[..56].rotate_left(6);
            }
            number
        }),
    ),
    (
        "takes a version's record that names version 1",
        How::Read(|_, number, lent, image| match behind(image, 6) {
            Some(rest) if image[2..6] == [1, 0, 0, 0] => taken_for(number, lent, rest),
            _ => number,
        }),
    ),
    (
        "takes a version's record of any number for one of version 2",
        How::Read(|_, number, lent, image| match behind(image, 6) {
            Some(rest) => taken_for(number, lent, &as_second(rest)),
            None => number,
        }),
    ),
    (
        "reads the lowest byte of the version alone",
        How::Read(|_, number, lent, image| match behind(image, 6) {
            Some(rest) if image[2] == 2 => taken_for(number, lent, &as_second(rest)),
            _ => number,
        }),
    ),
    (
        "takes a version's record that is a byte short",
        How::Read(|_, number, lent, image| match behind(image, 5) {
            Some(rest) => taken_for(number, lent, &as_second(rest)),
            None => number,
        }),
    ),
    (
        "takes a version's record twice",
        How::Read(|_, number, lent, image| match behind(image, 6) {
            Some(rest) if rest.starts_with(VERSION_MARK) => taken_for(number, lent, rest),
            _ => number,
        }),
    ),
    (
        "takes another mark for the version's",
        How::Read(|_, number, lent, image| match image.get(6..) {
            Some(rest) if image[2..6] == VERSION_RECORD[2..] => taken_for(number, lent, &as_second(rest)),
            _ => number,
        }),
    ),
    (
        "leaves the version as it was",
        How::Read(|before, number, lent, _| {
            if number == 0 {
                lent.words[VERSION] = before.words[VERSION];
            }
            number
        }),
    ),
    (
        "reads every image as one of version 1",
        How::Read(|_, number, lent, _| {
            if number == 0 {
                lent.words[VERSION] = 1;
            }
            number
        }),
    ),
    (
        "writes the version before it refuses",
        How::Read(|_, number, lent, image| {
            if number != 0
                && let Some(word) = lent.words.get_mut(VERSION)
            {
                *word = if image.starts_with(VERSION_MARK) { 2 } else { 1 };
            }
            number
        }),
    ),
    (
        "writes both offices under one mark",
        How::Write(|lent, number, bytes, _| {
            if number == 0 {
                marked(lent, bytes, MARKS[1], |_| true);
            }
            number
        }),
    ),
    (
        "exchanges the offices' marks",
        How::Write(|lent, number, bytes, _| {
            if number == 0 {
                marked(lent, bytes, SECOND_BODY, |office| office == 0);
                marked(lent, bytes, MARKS[1], |office| office == 1);
            }
            number
        }),
    ),
    (
        "writes a model of two offices under the second mark",
        How::Write(|lent, number, bytes, _| {
            if number == 0 && offices(lent).iter().any(|&at| lent.words[at] == 1) {
                marked(lent, bytes, SECOND_BODY, |_| true);
            }
            number
        }),
    ),
    (
        "gives a length with a number for each office",
        How::Length(|lent, number, length| {
            if number == 0 {
                *length += 4 * offices(lent).len();
            }
            number
        }),
    ),
    (
        "reads every body as office 0's",
        How::Read(|_, number, lent, _| {
            if number == 0 {
                offices(lent).into_iter().for_each(|at| lent.words[at] = 0);
            }
            number
        }),
    ),
    (
        "leaves the offices as they were",
        How::Read(|before, number, lent, _| {
            if number == 0 {
                for at in offices(lent) {
                    lent.words[at] = before.words[at];
                }
            }
            number
        }),
    ),
    (
        "refuses the second body mark",
        How::Read(|before, number, lent, _| {
            refuses(before, number, lent, |kept| {
                kept.bodies.iter().any(|body| body.office == 1)
            })
        }),
    ),
    (
        "takes any mark that begins with B for a body's",
        How::Read(|_, number, lent, image| {
            mended(number, lent, image, |other, at| {
                let is_so = other[at] == b'B' && other.len() > at + 1;
                put(other, at, if is_so { SECOND_BODY } else { &[] });
                is_so
            })
        }),
    ),
    (
        "takes the second body mark for a region's",
        How::Read(|_, number, lent, image| {
            mended(number, lent, image, |other, at| {
                let is_so = other[at..].starts_with(SECOND_BODY);
                put(other, at, if is_so { MARKS[2] } else { &[] });
                is_so
            })
        }),
    ),
];
