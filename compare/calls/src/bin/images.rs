//! Images of models, compared with the Rust of `image.rs` and `images.rs`: `images [models] [seed]`; `images random [count] [seed]` for bytes
//! of any sort; `images wrong [models] [seed]` for wrong stations, each of which must be seen; `images bench` for the time. The exit status
//! is 1 where anything differs.

use std::env;
use std::hint::black_box;
use std::process::ExitCode;
use std::time::{Duration, Instant};

use calls::image::{
    Body, Carrier, Edge, FIRST, Face, Fin, Kept, Loop, MARKS, MOST, NUMBERS, Region, SECOND_BODY,
    Shell, VERSION_MARK, VERSION_RECORD, Vertex, begins, decode, encode,
};
use calls::image_wrong::WRONGS;
use calls::images::{Station, UNTOUCHED_LENGTH, apart, expected, put, same, same_model};
use calls::layout::{LARGEST, LISTS, Lent, VERSION};
use calls::noise::{BORDERS, full, garbage, room, shaped, split, wild};
use calls::spoil::spoil;
use calls::tally::Tally;
use models::plain::{Plain, Version};
use models::random::Random;

/// Images up to this length are small: they are changed byte by byte.
const SMALL: usize = 1500;

fn bytes(n: usize, random: &mut Random) -> Vec<u8> {
    (0..n).map(|_| random.bits() as u8).collect()
}

fn word(number: u32) -> &'static str {
    match number {
        0 => "accepted",
        8 => "refused with 8",
        9 => "refused with 9",
        _ => "another refusal",
    }
}

/// The image of what the memory holds, by the length's call and by writing into bytes that are just enough, more, and too few. It is given
/// back where the memory can be read.
fn written(
    tally: &mut Tally,
    station: Station,
    lent: &Lent,
    told: &str,
    random: &mut Random,
) -> Option<Vec<u8>> {
    let before = lent.clone();
    let image = lent.readable().then(|| encode(&Kept::of(lent)));
    let refused = (9, UNTOUCHED_LENGTH);
    let length = image.as_ref().map_or(refused, |image| (0, image.len()));
    tally.met("image_length", word(length.0));
    tally.same("lengths", &length, &station.length(lent), || told.into());
    let n = image.as_ref().map_or(FIRST, Vec::len);
    for b in [n, n + 1 + random.below(40), n - 1, random.below(n), 0] {
        let garbage = bytes(b, random);
        let mut given = garbage.clone();
        let answer = station.write(lent, &mut given);
        let mut right = garbage;
        let number = match &image {
            None => refused,
            Some(image) if b < image.len() => (8, UNTOUCHED_LENGTH),
            Some(image) => {
                right[..image.len()].copy_from_slice(image);
                (0, image.len())
            }
        };
        tally.met("write_image", word(number.0));
        tally.compared("images written", 1);
        tally.compared("bytes written or left", b);
        if answer != number || given != right {
            tally.differs("images written", || {
                let place = right.iter().zip(&given).position(|(x, y)| x != y);
                format!("{told}, {b} bytes for {n}: expected {number:?}, ours {answer:?}, first other byte at {place:?}")
            });
        }
    }
    tally.compared("memory behind writing", 1);
    if !same(&before, lent) {
        tally.differs("memory behind writing", || apart(&before, lent));
    }
    image
}

/// Memory to read into, and the same as it was.
struct Slate {
    before: Lent,
    now: Lent,
}

impl Slate {
    fn new(lent: Lent) -> Self {
        Self {
            before: lent.clone(),
            now: lent,
        }
    }

    /// Garbage with capacities that so many records fit into.
    fn fitting(used: [usize; 10], random: &mut Random) -> Self {
        Self::new(garbage(room(used, random), random))
    }

    /// Reads an image into the memory: the answer, and all words and floats. What was accepted must give the same bytes again.
    fn read(
        &mut self,
        tally: &mut Tally,
        station: Station,
        image: &[u8],
        what: impl Fn() -> String,
    ) {
        let expected = expected(&self.before, image);
        let number = station.read(&mut self.now, image);
        let right = expected.as_ref().err().copied().unwrap_or(0);
        tally.met("read_image", word(right));
        tally.compared("images read", 1);
        tally.compared("bytes read", image.len());
        let Ok(kept) = expected else {
            if number != right || !same(&self.before, &self.now) {
                tally.differs("images read", || {
                    format!(
                        "{}: expected {right}, ours {number}; memory: {}",
                        what(),
                        apart(&self.before, &self.now)
                    )
                });
                self.now.clone_from(&self.before);
            }
            return;
        };
        let mut after = self.before.clone();
        kept.over(&mut after);
        if number != 0 || !same_model(&after, &self.now, kept.used()) {
            tally.differs("images read", || {
                format!(
                    "{}: expected 0, ours {number}; memory: {}",
                    what(),
                    apart(&after, &self.now)
                )
            });
        } else {
            let mut again = vec![0; image.len()];
            let answer = station.write(&self.now, &mut again);
            tally.compared("images read and written again", 1);
            if answer != (0, image.len()) || again != image || encode(&kept) != image {
                tally.differs("images read and written again", || {
                    format!("{}: {answer:?}", what())
                });
            }
        }
        self.now.clone_from(&self.before);
    }
}

/// Memory of any capacities for a model of so many records: with fewer slots than that, with capacities above the largest, cut short, or
/// longer than it need be.
fn other_memory(used: [usize; 10], random: &mut Random) -> (Lent, &'static str) {
    let mut slots = room(used, random);
    let k = random.below(10);
    let scarce = random.one_in(3);
    if scarce {
        slots[k] = random.below(used[k] + 1).min(slots[k]);
    }
    let mut lent = garbage(slots, random);
    let what = match random.below(16) {
        0 => {
            lent.room[k] = random.pick(&[LARGEST[k] + 1, usize::MAX, 1 << 40]);
            "a capacity above the largest"
        }
        1 => {
            let n = lent.words.len();
            lent.words.truncate(random.pick(&[0, 9, n - 1, n / 2]));
            "words cut short"
        }
        2 => {
            let n = lent.reals.len();
            lent.reals.truncate(random.pick(&[0, n - 1, n / 2]));
            "floats cut short"
        }
        3 => {
            lent.words.extend([7; 3]);
            lent.reals.extend([7.0; 3]);
            "longer memory"
        }
        _ if scarce => "perhaps too few slots",
        _ => "other memory",
    };
    (lent, what)
}

/// A field of a record at this place of an image set to a tag or an id, or to a float at a border.
fn field(image: &mut [u8], at: usize, k: usize, random: &mut Random) {
    let (numbers, floats) = (NUMBERS[k], [0, 0, 0, 0, 0, 0, 1, 4, 6, 6][k]);
    let field = random.below(numbers + floats);
    if field < numbers {
        let number = random.pick(&[0, 1, 2, 3, 4, 5, 1 << 16, u32::MAX]);
        put(image, at + 2 + 4 * field, &number.to_le_bytes());
    } else {
        let place = at + 2 + 4 * numbers + 8 * (field - numbers);
        put(image, place, &random.pick(&BORDERS).to_le_bytes());
    }
}

/// The image with another version's record in its place, cut, twice, and behind the precision's; or with none, where it had one.
fn versions(tally: &mut Tally, station: Station, image: &[u8], slate: &mut Slate) {
    let rest = &image[begins(image)..];
    for number in [0, 1, 2, 3, 258, 2 << 8, 2 << 24, 1 << 31, u32::MAX] {
        let record = [&VERSION_MARK[..], &u32::to_le_bytes(number)].concat();
        slate.read(tally, station, &[&record[..], rest].concat(), || {
            format!("a version's record of {number}")
        });
    }
    for n in 0..6 {
        let cut = &VERSION_RECORD[..n];
        slate.read(tally, station, cut, || format!("{n} bytes of a version's record"));
        slate.read(tally, station, &[cut, rest].concat(), || {
            format!("{n} bytes of a version's record, and the image")
        });
    }
    for mark in [b"NV", b"vn", b"VE", b"VM", b"PR", b"\0N"] {
        let record = [&mark[..], &VERSION_RECORD[2..]].concat();
        slate.read(tally, station, &[&record[..], rest].concat(), || {
            format!("a version's record with the mark {mark:?}")
        });
    }
    for n in [1, 2] {
        let records = VERSION_RECORD.repeat(n);
        let (front, behind) = rest.split_at(FIRST);
        slate.read(tally, station, &[&records[..], &VERSION_RECORD, rest].concat(), || {
            format!("a version's record {} times", n + 1)
        });
        slate.read(tally, station, &[front, &records, behind].concat(), || {
            format!("{n} of a version's record behind the precision's")
        });
        slate.read(tally, station, &[rest, &records].concat(), || {
            format!("{n} of a version's record at the end")
        });
    }
}

/// What is not an image any more, or another model's: cut between two records, a record left out, a record twice, a field of a record changed; the
/// precision; and single bytes changed, dropped and added, at all places, or at some.
fn changed(tally: &mut Tally, station: Station, image: &[u8], kept: &Kept, random: &mut Random) {
    let mut slate = Slate::fitting(kept.used(), random);
    versions(tally, station, image, &mut slate);
    let mut at = kept.front();
    let sizes = kept.sizes().into_iter().enumerate();
    for (k, size) in sizes.flat_map(|(k, sizes)| sizes.into_iter().map(move |size| (k, size))) {
        let (record, behind) = (&image[at..at + size], &image[at + size..]);
        slate.read(tally, station, &image[..at], || {
            format!("cut before the record at {at}")
        });
        slate.read(tally, station, &[&image[..at], behind].concat(), || {
            format!("without the record at {at}")
        });
        slate.read(
            tally,
            station,
            &[&image[..at], record, record, behind].concat(),
            || format!("the record at {at} twice"),
        );
        let mut other = image.to_vec();
        field(&mut other, at, k, random);
        slate.read(tally, station, &other, || {
            format!("a field of the record at {at}")
        });
        // The mark of either office, and what is none of a body; either office for what is no body.
        if k == 0 || random.one_in(8) {
            for mark in [MARKS[1], SECOND_BODY, b"BQ", b"BN", b"bP", b"B\0"] {
                put(&mut other, at, &[&mark[..], &record[2..]].concat());
                slate.read(tally, station, &other, || {
                    format!("the mark {mark:?} for the record at {at}")
                });
            }
        }
        at += size;
    }
    for precision in BORDERS {
        let mut other = image.to_vec();
        put(&mut other, begins(image) + 42, &precision.to_le_bytes());
        slate.read(tally, station, &other, || {
            format!("the precision {precision:#x}")
        });
    }
    let places: Vec<usize> = if random.one_in(50) {
        (0..image.len()).collect()
    } else {
        (0..8).map(|_| random.below(image.len())).collect()
    };
    let mut other = image.to_vec();
    for at in places {
        let old = image[at];
        for new in [old ^ 1, old ^ 0x80, 0, 0xff, random.bits() as u8] {
            other[at] = new;
            slate.read(tally, station, &other, || {
                format!("byte {at} changed to {new:#x}")
            });
        }
        other[at] = old;
        let dropped = [&image[..at], &image[at + 1..]].concat();
        slate.read(tally, station, &dropped, || format!("byte {at} dropped"));
        let any = random.bits() as u8;
        let new = random.pick(&[0, old, any]);
        let added = [&image[..at], &[new], &image[at..]].concat();
        slate.read(tally, station, &added, || {
            format!("{new:#x} added before byte {at}")
        });
    }
    let any = random.bits() as u8;
    let new = random.pick(&[0, any]);
    slate.read(tally, station, &[image, &[new]].concat(), || {
        format!("{new:#x} added at the end")
    });
    slate.read(tally, station, &image[..image.len() - 1], || {
        "the last byte dropped".into()
    });
}

/// A model with one record of each table and no entries.
fn single() -> Kept {
    Kept {
        version: Version::First,
        precision: 0.001,
        bodies: vec![Body {
            kind: 3,
            office: 0,
            regions: Vec::new(),
        }],
        regions: vec![Region {
            body: 0,
            solid: true,
            shells: Vec::new(),
        }],
        shells: vec![Shell {
            region: 0,
            faces: Vec::new(),
            wire_edges: Vec::new(),
            acorn_vertices: Vec::new(),
        }],
        faces: vec![Face {
            front: None,
            back: None,
            surface: None,
            negative: false,
            loops: Vec::new(),
        }],
        loops: vec![Loop {
            face: 0,
            fins: Vec::new(),
        }],
        fins: vec![Fin {
            owner: 0,
            edge: 0,
            negative: false,
            pcurve: false,
        }],
        edges: vec![Edge {
            start: None,
            end: None,
            curve: None,
            tolerance: None,
            fins: Vec::new(),
        }],
        vertices: vec![Vertex {
            point: [0.0; 3],
            tolerance: None,
        }],
        curves: vec![Carrier::Line([1.0; 6])],
        surfaces: vec![Carrier::Plane([1.0; 6])],
    }
}

/// The same with so many records of one table.
fn many(k: usize, n: usize) -> Kept {
    fn fill<T: Clone>(records: &mut Vec<T>, n: usize) {
        *records = vec![records[0].clone(); n];
    }
    let mut kept = single();
    match k {
        0 => fill(&mut kept.bodies, n),
        1 => fill(&mut kept.regions, n),
        2 => fill(&mut kept.shells, n),
        3 => fill(&mut kept.faces, n),
        4 => fill(&mut kept.loops, n),
        5 => fill(&mut kept.fins, n),
        6 => fill(&mut kept.edges, n),
        7 => fill(&mut kept.vertices, n),
        8 => fill(&mut kept.curves, n),
        _ => fill(&mut kept.surfaces, n),
    }
    kept
}

/// The same with so many entries of one list.
fn long(j: usize, n: usize) -> Kept {
    let mut kept = single();
    let list = match j {
        0 => &mut kept.bodies[0].regions,
        1 => &mut kept.regions[0].shells,
        2 => &mut kept.shells[0].faces,
        3 => &mut kept.shells[0].wire_edges,
        4 => &mut kept.shells[0].acorn_vertices,
        5 => &mut kept.faces[0].loops,
        6 => &mut kept.loops[0].fins,
        _ => &mut kept.edges[0].fins,
    };
    *list = (0..n as u32).collect();
    kept
}

/// Each table and each list at its limit, and whole images with one more: 9, not the 8 of what has no room.
fn limits(tally: &mut Tally, station: Station, random: &mut Random) {
    let mut slate = Slate::new(garbage(LARGEST, random));
    let mut scarce = Slate::new(garbage([1; 10], random));
    let tables = (0..10).flat_map(|k| {
        [MOST[k], MOST[k] + 1].map(|n| (many(k, n), format!("{n} records of table {k}")))
    });
    let lists = LISTS.iter().enumerate().flat_map(|(j, list)| {
        [list.2, list.2 + 1].map(|n| (long(j, n), format!("{n} entries of list {j}")))
    });
    for (k, (mut kept, what)) in tables.chain(lists).enumerate() {
        // Two of either version in turn.
        kept.version = if k % 4 < 2 { Version::First } else { Version::Second };
        let image = encode(&kept);
        slate.read(tally, station, &image, || what.clone());
        scarce.read(tally, station, &image, || {
            format!("{what}, one slot for each table")
        });
    }
}

/// One model, compared.
fn compared(tally: &mut Tally, station: Station, [seed, number]: [u64; 2]) {
    let mut random = Random::new(seed, number, 700);
    let random = &mut random;
    let (lent, told) = match random.below(3) {
        0 => shaped(random),
        _ => (wild(random), "wild".into()),
    };
    tally.begin(format!("model {number} of seed {seed}: {told}"));
    if number == 1 {
        limits(tally, station, random);
    }
    let Some(image) = written(tally, station, &lent, "the model", random) else {
        return;
    };
    let kept = Kept::of(&lent);
    let used = kept.used();
    Slate::fitting(used, random).read(tally, station, &image, || "capacities that fit".into());
    for _ in 0..3 {
        let (other, what) = other_memory(used, random);
        let mut slate = Slate::new(other);
        slate.read(tally, station, &image, || what.into());
        // An image that is refused: before what has no room.
        let cut = &image[..random.below(image.len())];
        slate.read(tally, station, cut, || {
            format!("{what}, cut to {} bytes", cut.len())
        });
    }
    // Over the model itself, as it is, of the other version and of the other offices, and over what cannot be read.
    tally.met("models by version", kept.version as u32);
    for body in &kept.bodies {
        tally.met("bodies by office", body.office);
    }
    Slate::new(lent.clone()).read(tally, station, &image, || "over itself".into());
    let mut other = lent.clone();
    other.words[VERSION] = 3 - other.words[VERSION];
    Slate::new(other).read(tally, station, &image, || "over the other version".into());
    let mut other = lent.clone();
    for i in 0..used[0] {
        let at = other.word_at(0, i) + 1;
        other.words[at] = 1 - other.words[at];
    }
    Slate::new(other).read(tally, station, &image, || "over the other offices".into());
    let mut spoiled = lent;
    for _ in 0..random.pick(&[1, 1, 3]) {
        if spoiled.readable() {
            let what = spoil(&mut spoiled, random);
            tally.met(
                what,
                if spoiled.readable() {
                    "readable"
                } else {
                    "not readable"
                },
            );
        }
    }
    written(tally, station, &spoiled, "spoiled", random);
    Slate::new(spoiled).read(tally, station, &image, || "over what is spoiled".into());
    if image.len() <= SMALL {
        changed(tally, station, &image, &kept, random);
    }
}

fn models(count: u64, seed: u64) -> ExitCode {
    let mut tally = Tally::default();
    for number in 1..=count {
        compared(&mut tally, Station(None), [seed, number]);
    }
    tally.end()
}

// ---- bytes of any sort

/// The image of a small model.
fn small(random: &mut Random) -> (Vec<u8>, [usize; 10]) {
    loop {
        let kept = Kept::of(&wild(random));
        let image = encode(&kept);
        if image.len() <= SMALL {
            return (image, kept.used());
        }
    }
}

/// Bytes that are mostly no image: any, an image's front and any, counts of any size, some bytes or numbers of an image changed, two images
/// in one; and what they are.
fn any(base: &[u8], random: &mut Random) -> (Vec<u8>, &'static str) {
    let (n, from) = (base.len(), begins(base));
    let mut image = base.to_vec();
    let what = match random.below(11) {
        0 => {
            let n = random.below(200);
            image = bytes(n, random);
            "any bytes"
        }
        1 => {
            image.truncate(random.below(n + 1));
            let tail = random.below(60);
            image.extend(bytes(tail, random));
            "an image's front, and any bytes"
        }
        2 => {
            image.truncate(from + FIRST);
            for k in 0..10 {
                let count = if random.one_in(4) {
                    1 + random.below(2)
                } else {
                    0
                };
                put(&mut image, from + 2 + 4 * k, &[count as u8, 0, 0, 0]);
                for _ in 0..count {
                    let second = k == 0 && random.one_in(2);
                    image.extend(if second { SECOND_BODY } else { MARKS[k + 1] });
                    // As many numbers as the record has without entries; two of them are a float.
                    for _ in 0..[2, 3, 4, 8, 2, 4, 10, 9, 13, 13][k] {
                        image.extend([random.pick(&[0, 0, 0, 0, 1, 1, 2]), 0, 0, 0]);
                    }
                }
            }
            "small counts, and records of small numbers"
        }
        3 => {
            let k = random.below(10);
            let most = MOST[k] as u32;
            let count = random.pick(&[most, most + 1, 1 << 16, 1 << 31, u32::MAX]);
            put(&mut image, from + 2 + 4 * k, &count.to_le_bytes());
            "a count at its limit or above it"
        }
        4 => {
            for _ in 0..1 + random.below(4) {
                let at = random.below(n);
                let any = random.bits() as u8;
                image[at] = random.pick(&[0, 1, 2, 0xff, any]);
            }
            "some bytes changed"
        }
        5 => {
            let at = random.below(n);
            let number = random.pick(&[0, 1, 2, 4, 5, 16, 17, 512, 513, 1024, 1025, u32::MAX]);
            put(&mut image, at, &u32::to_le_bytes(number));
            "a number changed"
        }
        6 => {
            let (second, _) = small(random);
            let [at, from] = [n, second.len()].map(|n| random.below(n + 1));
            image.truncate(at);
            image.extend(&second[from..]);
            "two images in one"
        }
        7 => {
            let any = random.bits() as u32;
            let number = random.pick(&[0, 1, 2, 2, 2, 3, 258, u32::MAX, any]);
            let record = [&VERSION_MARK[..], &number.to_le_bytes()].concat();
            image.splice(..from, record);
            "another version"
        }
        8 => {
            image.drain(..from);
            let any = random.below(image.len() + 1);
            let at = random.pick(&[0, 0, FIRST, any]);
            image.splice(at..at, VERSION_RECORD);
            "the version's record in another place"
        }
        9 => {
            // Of the bodies the first, where there is one; else of what stands there.
            let anywhere = random.below(n);
            let at = random.pick(&[from + FIRST, anywhere]);
            let any = [random.bits() as u8, random.bits() as u8];
            let mark = random.pick(&[*MARKS[1], *SECOND_BODY, *SECOND_BODY, *b"BQ", any]);
            put(&mut image, at, &mark);
            "another body mark"
        }
        _ => {
            let at = random.below(n);
            let float = random.pick(&[-0.0, 1.0, -1.0, f64::INFINITY, f64::from_bits(u64::MAX)]);
            put(&mut image, at, &float.to_le_bytes());
            "a float changed"
        }
    };
    (image, what)
}

fn randoms(count: u64, seed: u64) -> ExitCode {
    let mut tally = Tally::default();
    let mut random = Random::new(seed, 0, 800);
    let (mut base, mut used) = small(&mut random);
    let mut slate = Slate::fitting(used, &mut random);
    for number in 1..=count {
        let mut random = Random::new(seed, number, 800);
        if random.one_in(12) {
            (base, used) = small(&mut random);
            let mut slots = used.map(|n| n + random.below(3));
            if random.one_in(4) {
                let k = random.below(10);
                slots[k] = random.below(slots[k] + 1);
            }
            slate = Slate::new(garbage(slots, &mut random));
        }
        let (image, what) = any(&base, &mut random);
        tally.begin(format!("bytes {number} of seed {seed}: {what}"));
        tally.met(
            what,
            word(expected(&slate.before, &image).err().unwrap_or(0)),
        );
        slate.read(&mut tally, Station(None), &image, || what.into());
    }
    tally.end_of("images")
}

// ---- wrong stations

/// Each wrong station must be seen on one of the models.
fn wrongs(count: u64, seed: u64) -> ExitCode {
    let mut unseen = 0;
    for (what, how) in WRONGS {
        let mut tally = Tally::quiet();
        let mut number = 0;
        while number < count && tally.differing() == 0 {
            number += 1;
            compared(&mut tally, Station(Some(how)), [seed, number]);
        }
        if tally.differing() == 0 {
            println!("a station that {what}: not seen on {count} models");
            unseen += 1;
        } else {
            println!("a station that {what}: seen on model {number}");
        }
    }
    println!("{} wrong stations, {unseen} not seen", WRONGS.len());
    ExitCode::from(u8::from(unseen > 0))
}

// ---- the time

/// The time of each of some calls in one repetition, of so many calls that it takes long enough.
fn time(mut call: impl FnMut()) -> Duration {
    let mut calls = 1;
    loop {
        let start = Instant::now();
        (0..calls).for_each(|_| call());
        let taken = start.elapsed();
        if taken > Duration::from_millis(10) {
            return taken / calls;
        }
        calls *= 2;
    }
}

fn median(mut of: Vec<f64>) -> f64 {
    of.sort_by(f64::total_cmp);
    of[of.len() / 2]
}

/// Both sides in turn, eleven times: the medians of MB/s and of ours as a share of the Rust's time.
fn row(what: &str, bytes: usize, mut rust: impl FnMut(), mut ours: impl FnMut()) {
    let times: Vec<[f64; 2]> = (0..11)
        .map(|_| [time(&mut rust), time(&mut ours)].map(|t| t.as_secs_f64()))
        .collect();
    let speed = |side: usize| median(times.iter().map(|t| bytes as f64 / t[side] / 1e6).collect());
    let ratio = median(times.iter().map(|t| t[1] / t[0]).collect());
    println!(
        "  {what:38} Rust {:>8.1} MB/s, ours {:>8.1} MB/s, ratio of the times {ratio:.2}",
        speed(0),
        speed(1)
    );
}

fn bench() -> ExitCode {
    let mut plain = Plain::prisms(1, 500);
    for edge in 0..500 {
        split(&mut plain, edge).expect("room for a split");
    }
    let models = [
        (
            "a prism of 2,000 edges, capacities as used",
            Lent::holding(&plain, plain.used(), 0, 0.0),
        ),
        (
            "the same, the largest capacities",
            Lent::holding(&plain, LARGEST, 0, 0.0),
        ),
        (
            "every table and list full",
            full(&mut Random::new(1, 1, 900)),
        ),
    ];
    for (what, lent) in models {
        let kept = Kept::of(&lent);
        let image = encode(&kept);
        let n = image.len();
        println!("{what}: {} edges, an image of {n} bytes", kept.edges.len());
        let station = Station(None);
        let mut bytes = vec![0; n];
        let mut memory = lent.clone();
        let mut others = lent.clone();
        assert_eq!(station.write(&lent, &mut bytes), (0, n));
        assert!(bytes == image, "the same image");
        assert_eq!(station.read(&mut memory, &image), 0);
        let mut write = || {
            black_box(station.write(black_box(&lent), &mut bytes));
        };
        let mut read = || {
            black_box(station.read(&mut memory, black_box(&image)));
        };
        row(
            "writing; the Rust's from records",
            n,
            || drop(black_box(encode(black_box(&kept)))),
            &mut write,
        );
        row(
            "writing; the Rust's from the memory",
            n,
            || drop(black_box(encode(&Kept::of(black_box(&lent))))),
            &mut write,
        );
        row(
            "reading; the Rust's into records",
            n,
            || drop(black_box(decode(black_box(&image)))),
            &mut read,
        );
        row(
            "reading; the Rust's into the memory",
            n,
            || {
                decode(black_box(&image))
                    .expect("an image")
                    .over(black_box(&mut others))
            },
            &mut read,
        );
        let length = time(|| {
            black_box(station.length(black_box(&lent)));
        });
        println!(
            "  {:38} {:>41.1} us",
            "the length alone",
            length.as_secs_f64() * 1e6
        );
    }
    ExitCode::SUCCESS
}

fn main() -> ExitCode {
    let words: Vec<String> = env::args().skip(1).collect();
    let (mode, numbers) = match words.split_first() {
        Some((first, rest)) if first.parse::<u64>().is_err() => (first.as_str(), rest),
        _ => ("models", &words[..]),
    };
    let numbers: Result<Vec<u64>, _> = numbers.iter().map(|a| a.parse()).collect();
    let (count, seed) = match numbers.as_deref() {
        Ok([]) => (None, 1),
        Ok([count]) => (Some(*count), 1),
        Ok([count, seed]) => (Some(*count), *seed),
        _ => return usage(),
    };
    match mode {
        "models" => models(count.unwrap_or(20_000), seed),
        "random" => randoms(count.unwrap_or(1_000_000), seed),
        "wrong" => wrongs(count.unwrap_or(1000), seed),
        "bench" => bench(),
        _ => usage(),
    }
}

fn usage() -> ExitCode {
    eprintln!(
        "usage: images [models] [seed] | images random [images] [seed] | images wrong [models] [seed] | images bench"
    );
    ExitCode::from(2)
}
