//! Binary STL of a body (W-209), compared with what the request's words make of the faces and points of the Rust's volume (`stl.rs`): `stl [models] [seed]`;
//! `stl wrong [models] [seed]` for wrong stations, each of which must be seen; `stl files DIR` writes three stones for the readers (`compare/readers`). The exit
//! status is 1 where anything differs.

use std::process::ExitCode;
use std::{env, fs, path};

use calls::layout::{LARGEST, Lent};
use calls::noise::{around, wild};
use calls::offices::Station;
use calls::sheets::Stone;
use calls::solids::{again, equal, turned};
use calls::spoil::spoil;
use calls::stl::{Answer, Ask, Rule, answer, coordinate, file};
use calls::stl_wrong::{BESIDE, How, WRONGS};
use calls::tally::Tally;
use models::original::{self, Names};
use models::plain::{Plain, Version, Vertex};
use models::random::Random;
use models::{Made, Sort, made};

/// Offices that are none.
const ABOVE: [u32; 5] = [2, 2, 3, 1 << 31, u32::MAX];

// ---- models of binary32 values, beside them, and at their ends

/// A binary32 value.
fn narrow(random: &mut Random) -> f64 {
    let any = f32::from_bits(random.bits() as u32);
    let any = if any.is_finite() { any } else { 1.5 };
    let small = f32::from_bits(random.bits() as u32 & 0x807f_ffff);
    let sixteenths = random.below(4_001) as f32 - 2_000.0;
    f64::from(random.pick(&[
        any,
        any,
        any,
        small,
        0.0,
        -0.0,
        f32::MAX,
        f32::MIN,
        f32::MIN_POSITIVE,
        f32::from_bits(1),
        -f32::from_bits(0x007f_ffff),
        sixteenths / 16.0,
    ]))
}

/// A coordinate about the binary32 values: half a step off one, a step of binary64 off one, beyond all, no number.
fn about(random: &mut Random) -> f64 {
    let on = narrow(random);
    let next = f64::from((on as f32).next_up());
    let half = on / 2.0 + next / 2.0;
    match random.below(4) {
        0 => random.pick(&[on.next_up(), on.next_down(), half, half]),
        1 => {
            let beyond = f64::from(f32::MAX).next_up();
            random.pick(&[beyond, -beyond, 2.0f64.powi(128), 1.0e300, f64::MAX])
        }
        2 => random.pick(&[f64::NAN, f64::INFINITY, f64::NEG_INFINITY]),
        _ => random.pick(&[
            0.1,
            1.0 / 3.0,
            16_777_217.0,
            2.0f64.powi(-150),
            3.0 * 2.0f64.powi(-150),
            5.0e-324,
            f64::MIN_POSITIVE,
            -1.0e-300,
        ]),
    }
}

/// The points made binary32 values, all of them or all but one coordinate or two; at times they stay as they are.
fn narrowed(plain: &mut Plain, random: &mut Random) -> String {
    let how = random.pick(&["as made", "rounded", "rounded", "rounded", "any", "any"]);
    for x in plain.vertices.iter_mut().flat_map(|r| &mut r.point) {
        match how {
            "as made" => {}
            "rounded" => *x = f64::from(*x as f32),
            _ => *x = narrow(random),
        }
    }
    let mut told = format!("points {how}");
    if !plain.vertices.is_empty() && random.one_in(3) {
        for _ in 0..random.pick(&[1, 1, 2]) {
            let (id, axis) = (random.below(plain.vertices.len()), random.below(3));
            let x = if random.one_in(3) {
                narrow(random)
            } else {
                about(random)
            };
            plain.vertices[id].point[axis] = x;
            told += &format!(", vertex {id}: {x:e} on axis {axis}");
        }
    }
    told
}

/// A point that is no binary32 value and in no fan: an acorn vertex, or one that is nobody's.
fn loose(plain: &mut Plain, random: &mut Random) -> String {
    plain.vertices.push(Vertex {
        point: [about(random), 0.1, f64::NAN],
        tolerance: None,
    });
    let id = plain.vertices.len() - 1;
    let shell = random.below(plain.shells.len() + 1);
    match plain.shells.get_mut(shell) {
        Some(r) => r.acorn_vertices.push(id),
        None => return format!("vertex {id} of nobody"),
    }
    format!("acorn vertex {id} of shell {shell}")
}

/// A prism of many sides, its shell listed several times and a loop of it as long as one may be.
fn many(random: &mut Random) -> (Plain, String) {
    let sides = 4 + random.below(200);
    let mut plain = Plain::prisms(1, sides);
    let times = 1 + random.below(4);
    plain.regions[1].shells = vec![1; times];
    if random.one_in(2) {
        let face = random.below(sides + 2);
        let fins = &mut plain.loops[plain.faces[face].loops[0]].fins;
        let round = fins.clone();
        let more = 1_024 - fins.len();
        fins.extend(round.iter().cycle().take(more));
    }
    (
        plain,
        format!("a prism of {sides} sides, its shell listed {times} times"),
    )
}

/// A model of the number, sound or damaged, or one of many triangles; with bodies of both offices.
fn drawn(names: &Names, [seed, number]: [u64; 2], random: &mut Random) -> Option<Made> {
    let sound: &[usize] = &[];
    let sound = random.one_in(2).then_some(sound);
    let mut made = made(names, Sort::Several, seed, number, sound)?;
    let mut plain = made.plain;
    if random.one_in(24) {
        let (prism, told) = many(random);
        plain = prism;
        made.told = vec![told];
    }
    made.told.push(narrowed(&mut plain, random));
    if random.one_in(3) {
        made.told.push(turned(&mut plain, random));
    }
    if random.one_in(3) {
        made.told.extend(again(&mut plain, random));
    }
    if random.one_in(4) {
        made.told.push(loose(&mut plain, random));
    }
    if random.one_in(3) {
        made.told.push(equal(&mut plain, random));
    }
    let offices: Vec<u32> = plain
        .bodies
        .iter()
        .map(|_| random.below(2) as u32)
        .collect();
    plain = plain.of(&offices);
    plain.version = random.pick(&[Version::First, Version::Second]);
    made.told.push(format!("offices {offices:?}"));
    made.model = original::build(&mut plain, names).ok()?;
    made.plain = plain;
    Some(made)
}

// ---- asked

/// Lent bytes of any content: as many as the file, one less, some more, few or none.
fn lent_bytes(long: usize, random: &mut Random) -> Vec<u8> {
    let more = random.below(200);
    let n = random.pick(&[
        long,
        long,
        long,
        long + 1,
        long + more,
        long.saturating_sub(1),
        long.saturating_sub(50),
        84.min(long),
        83,
        0,
    ]);
    let mut bits = random.bits();
    (0..n)
        .map(|_| {
            bits = bits.wrapping_mul(6_364_136_223_846_793_005).wrapping_add(1);
            (bits >> 56) as u8
        })
        .collect()
}

/// What the first coordinate that is no binary32 value is.
fn losing(stone: &Stone) -> &'static str {
    let coordinates = stone.faces().flat_map(|(_, _, points)| points).flatten();
    let off = coordinates.copied().find(|&x| coordinate(x).is_none());
    match off {
        None => "none",
        Some(x) if !x.is_finite() => "not finite",
        Some(x) if x.abs() > f64::from(f32::MAX) => "beyond binary32",
        Some(x) if x.abs() < f64::from(f32::MIN_POSITIVE) => "below its normal numbers",
        Some(_) => "between two of binary32",
    }
}

fn counted(tally: &mut Tally, stone: &Stone, long: usize) {
    let faces = || stone.faces();
    for (is, what) in [
        (faces().any(|(_, front, _)| front), "by a front side"),
        (faces().any(|(again, ..)| again), "a face listed again"),
        (
            faces().any(|(.., points)| points.len() == 1_024),
            "of 1,024 fins",
        ),
    ] {
        if is {
            tally.met("faces", what);
        }
    }
    let coordinates = || faces().flat_map(|(_, _, points)| points).flatten();
    for (is, what) in [
        (
            coordinates().any(|&x| x != 0.0 && (x as f32).is_subnormal()),
            "subnormal",
        ),
        (
            coordinates().any(|x| x.to_bits() == 1 << 63),
            "negative zero",
        ),
        (
            coordinates().any(|x| x.abs() == f64::from(f32::MAX)),
            "the largest",
        ),
    ] {
        if is {
            tally.met("coordinates", what);
        }
    }
    tally.compared("bytes of files", long);
}

fn answered(
    lent: &Lent,
    stone: &Stone,
    ask: &Ask,
    random: &mut Random,
    wrong: Option<How>,
) -> Answer {
    let mut given = ask.ours(lent, random.bits() as u8, random.pick(&[0, 0, 0, 1, 40]));
    match wrong {
        Some(How::Rule(change)) => {
            let mut rule = Rule::REQUEST;
            change(&mut rule);
            let [right, other] = [Rule::REQUEST, rule].map(|rule| answer(stone, ask, &rule).0);
            if right != other {
                given = other;
            }
        }
        Some(How::Told(alter)) => alter(ask, &mut given),
        _ => {}
    }
    given
}

/// The bodies, asked about by both offices and at times by one that is none.
fn drawings(
    tally: &mut Tally,
    station: Station,
    stones: &[Stone],
    lent: &mut Lent,
    random: &mut Random,
    wrong: Option<How>,
) {
    let before = lent.clone();
    let bodies = &station.plain.bodies;
    for _ in 0..3 + bodies.len() {
        let behind = usize::from(random.one_in(6));
        let body = random.below(bodies.len() + behind);
        let own = bodies.get(body).map_or(0, |r| r.office);
        let above = random.pick(&ABOVE);
        let office = random.pick(&[own, own, own, own, own, own, 1 - own, above]);
        // The other's body is asked about as the one behind the last, and so is an id above every table.
        let missing = random.one_in(30);
        let stone = &stones[if missing || office != own {
            bodies.len()
        } else {
            body
        }];
        let body = match missing {
            true => random.pick(&[
                65_535,
                u32::MAX as usize,
                1 << 32,
                (1 << 32) + body,
                usize::MAX,
            ]),
            false => body,
        };
        let long = file(stone, &Rule::REQUEST).map_or(0, |file| file.len());
        let ask = Ask {
            office,
            body,
            short: lent.room[3] > 0 && random.one_in(10),
            slot: random.bits() as usize,
            bytes: (!random.one_in(4)).then(|| lent_bytes(long, random)),
        };
        let (expected, words) = answer(stone, &ask, &Rule::REQUEST);
        tally.met("answer", &words);
        match (expected.number, &ask.bytes) {
            (0, Some(_)) => counted(tally, stone, long),
            (5, _) => tally.met("bits lost", losing(stone)),
            _ => {}
        }
        lent.office = office;
        let given = answered(lent, stone, &ask, random, wrong);
        tally.same("drawings", &expected, &given, || format!("{ask:?}"));
        if matches!(wrong, Some(How::Tables)) && expected.number == 0 {
            lent.reals[0] = lent.reals[0].next_up();
        }
    }
    let same = *lent == before;
    tally.same("tables behind the drawings", &true, &same, || {
        "all of them".into()
    });
}

/// What is answered where nothing is written.
fn refused(ask: &Ask, number: u32) -> Answer {
    Answer {
        number,
        slot: ask.slot,
        bytes: ask.bytes.clone().unwrap_or_default(),
        cleared: true,
    }
}

/// Memory that cannot be read: 9, whatever office asks.
fn unreadable(tally: &mut Tally, lent: &Lent, random: &mut Random, wrong: Option<How>) {
    let mut spoiled = lent.clone();
    let what = spoil(&mut spoiled, random);
    let lendable = spoiled.room.iter().zip(LARGEST).all(|(&n, most)| n <= most);
    if !lendable || spoiled.readable() {
        return;
    }
    spoiled.office = random.pick(&[0, 1, 2, u32::MAX]);
    let ask = Ask {
        office: spoiled.office,
        body: random.below(3),
        short: random.one_in(6),
        slot: random.bits() as usize,
        bytes: (!random.one_in(3)).then(|| lent_bytes(random.below(400), random)),
    };
    let mut given = ask.ours(&spoiled, random.bits() as u8, 0);
    if ask.office > 1 && matches!(wrong, Some(How::First)) {
        given.number = 1;
    }
    tally.same("garbage", &refused(&ask, 9), &given, || {
        format!("{what}: {ask:?}")
    });
}

/// Garbage that can be read, of which the Rust has no likeness: what the volume is refused with, by the station itself.
fn readable(tally: &mut Tally, random: &mut Random) {
    let mut lent = wild(random);
    for body in 0..=(lent.words[0] as usize).min(3) {
        lent.office = random.pick(&[0, 0, 1, 1, 2]);
        let volume = lent.volume(body, 1);
        if volume[0] == 0 {
            tally.met("readable garbage", "with a volume, left out");
            continue;
        }
        let ask = Ask {
            office: lent.office,
            body,
            short: false,
            slot: random.bits() as usize,
            bytes: (!random.one_in(3)).then(|| lent_bytes(random.below(400), random)),
        };
        tally.met("readable garbage", volume[0]);
        let given = ask.ours(&lent, random.bits() as u8, 0);
        let expected = refused(&ask, volume[0] as u32);
        tally.same("readable garbage", &expected, &given, || format!("{ask:?}"));
    }
}

/// One model, compared.
fn compared(tally: &mut Tally, names: &Names, [seed, number]: [u64; 2], wrong: Option<How>) {
    let mut random = Random::new(seed, number, 690);
    let random = &mut random;
    let Some(made) = drawn(names, [seed, number], random) else {
        return;
    };
    tally.begin(format!(
        "model {number} of seed {seed}: {}",
        made.told.join("; ")
    ));
    let station = Station {
        model: &made.model,
        names,
        plain: &made.plain,
    };
    let bodies = 0..=made.plain.bodies.len();
    let stones: Vec<Stone> = bodies
        .map(|body| {
            let office = made.plain.bodies.get(body).map_or(0, |r| r.office);
            Stone::of(station, office, body)
        })
        .collect();
    let mut lent = around(&made.plain, random);
    drawings(tally, station, &stones, &mut lent, random, wrong);
    unreadable(tally, &lent, random, wrong);
    readable(tally, random);
}

// ---- the readers' stones

/// 01's trial stone: a box of 4 by 3 by 2 mm.
fn trial() -> Plain {
    let mut plain = Plain::prisms(1, 4);
    for (k, r) in plain.vertices.iter_mut().enumerate() {
        let [x, y] = [[0.0, 0.0], [4.0, 0.0], [4.0, 3.0], [0.0, 3.0]][k % 4];
        r.point = [x, y, [0.0, 2.0][k / 4]];
    }
    plain
}

/// A file by the station, and the length told alone.
fn written(plain: &Plain) -> Vec<u8> {
    let lent = Lent::holding(plain, plain.used(), 0, 0.0);
    let [mut faces, ..] = lent.marks(0);
    let mut value = [0];
    assert_eq!(lent.stl_length(0, &mut faces, &mut value), 0, "a length");
    let mut bytes = vec![0xa5; value[0]];
    assert_eq!(
        lent.write_stl(0, &mut faces, &mut bytes, &mut value),
        0,
        "a file"
    );
    bytes
}

/// The three stones, each with what the station says of it: its triangles, its volume, its box.
fn files(dir: &path::Path) -> ExitCode {
    let mut prism = Plain::prisms(1, 500);
    for x in prism.vertices.iter_mut().flat_map(|r| &mut r.point) {
        *x = f64::from(*x as f32);
    }
    for (name, plain) in [
        ("trial", trial()),
        ("prism", prism),
        ("hole", Plain::pierced()),
    ] {
        let bytes = written(&plain);
        fs::write(dir.join(name).with_extension("stl"), &bytes).expect("the file is written");
        let lent = Lent::holding(&plain, plain.used(), 0, 0.0);
        let numbers =
            |told: Vec<u64>| -> Vec<f64> { told[1..].iter().map(|&b| f64::from_bits(b)).collect() };
        let volume = numbers(lent.volume(0, 0));
        let sides = numbers(lent.bounding_box(0, 0));
        println!("{name} {} {volume:?} {sides:?}", (bytes.len() - 84) / 50);
    }
    ExitCode::SUCCESS
}

// ---- all of them

fn over(names: &Names, count: u64, seed: u64) -> ExitCode {
    let mut tally = Tally::default();
    let mut number = 0;
    while (tally.models as u64) < count {
        number += 1;
        compared(&mut tally, names, [seed, number], None);
    }
    tally.end()
}

/// Each wrong station must be seen on one of the models.
fn wrongs(names: &Names, count: u64, seed: u64) -> ExitCode {
    let mut unseen = 0;
    for (what, how) in WRONGS.into_iter().chain(BESIDE) {
        let mut tally = Tally::quiet();
        let mut number = 0;
        while (tally.models as u64) < count && tally.differing() == 0 {
            number += 1;
            compared(&mut tally, names, [seed, number], Some(how));
        }
        if tally.differing() == 0 {
            println!("a station that {what}: not seen on {count} models");
            unseen += 1;
        } else {
            println!("a station that {what}: seen on model {number}");
        }
    }
    println!(
        "{} wrong stations, {unseen} not seen",
        WRONGS.len() + BESIDE.len()
    );
    ExitCode::from(u8::from(unseen > 0))
}

fn main() -> ExitCode {
    let words: Vec<String> = env::args().skip(1).collect();
    if let [mode, dir] = &words[..]
        && mode == "files"
    {
        return files(dir.as_ref());
    }
    let (mode, numbers) = match words.split_first() {
        Some((first, rest)) if first.parse::<u64>().is_err() => (first.as_str(), rest),
        _ => ("", &words[..]),
    };
    let numbers: Result<Vec<u64>, _> = numbers.iter().map(|a| a.parse()).collect();
    let (count, seed) = match numbers.as_deref() {
        Ok([]) => (None, 1),
        Ok([count]) => (Some(*count), 1),
        Ok([count, seed]) => (Some(*count), *seed),
        _ => return usage(),
    };
    let names = Names::new();
    match mode {
        "" => over(&names, count.unwrap_or(100_000), seed),
        "wrong" => wrongs(&names, count.unwrap_or(1_000), seed),
        _ => usage(),
    }
}

fn usage() -> ExitCode {
    eprintln!("usage: stl [models] [seed] | stl wrong [models] [seed] | stl files DIR");
    ExitCode::from(2)
}
