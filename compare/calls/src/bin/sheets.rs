//! The stone sheet in whole numbers (W-201), compared with what the request's words make of the Rust's tables (`sheets.rs`): `sheets [models] [seed]`;
//! `sheets wrong [models] [seed]` for wrong stations, each of which must be seen. The exit status is 1 where anything differs.

use std::env;
use std::process::ExitCode;

use calls::layout::{LARGEST, Lent};
use calls::noise::{around, wild};
use calls::offices::Station;
use calls::sheet_wrong::{How, WRONGS};
use calls::sheets::{Rule, Sheet, Stone, Take, Taken, limit, total, with_total};
use calls::solids::{about, again, equal, gridded, turned};
use calls::spoil::spoil;
use calls::tally::Tally;
use models::original::{self, Names};
use models::plain::{Plain, Version, Vertex};
use models::random::Random;
use models::{Made, Sort, made};

/// Offices that are none.
const ABOVE: [u32; 5] = [2, 2, 3, 1 << 31, u32::MAX];

// ---- models on the grid, beside it, and at its ends

/// A point off the grid that is in no fan: an acorn vertex, or one that is nobody's.
fn loose(plain: &mut Plain, random: &mut Random) -> String {
    plain.vertices.push(Vertex {
        point: [about(random), 0.03, f64::NAN],
        tolerance: None,
    });
    let id = plain.vertices.len() - 1;
    let shell = random.below(plain.shells.len() + 1);
    match plain.shells.get_mut(shell) {
        Some(r) => r.acorn_vertices.push(id),
        None => return format!("vertex {id} of nobody"),
    }
    format!("acorn vertex {id} of shell {shell}")
}

/// A prism brought to so many triangles: its last face is listed again and again, its loops go over their fins again and again, up to 1,024 of them, and its shell is
/// listed several times.
fn many(random: &mut Random) -> (Plain, String) {
    let count = random.pick(&[4_095, 4_096, 4_096, 4_097, 4_097, 4_098, 5_000]);
    let divisors: Vec<usize> = (1..=16).filter(|k| count % k == 0).collect();
    let times = random.pick(&divisors);
    let large = times == 1 && random.one_in(8);
    let (bodies, sides) = if large {
        (1, 100 + random.below(400))
    } else {
        (1 + random.below(2), 4 + random.below(6))
    };
    let mut plain = Plain::prisms(bodies, sides);
    let mut left = count / times - (4 * sides - 4);
    let last = sides + 1;
    let repeats = random
        .pick(&[0, 0, 1, 40, 490])
        .min(left / 2)
        .min(510 - last);
    plain.shells[1].faces.extend(vec![last; repeats]);
    left -= 2 * repeats;
    let mut loops: Vec<usize> = (0..=last).filter(|&k| repeats == 0 || k != last).collect();
    while left > 0 {
        let owner = loops.swap_remove(random.below(loops.len()));
        let fins = &mut plain.loops[plain.faces[owner].loops[0]].fins;
        let more = left.min(1_024 - fins.len());
        let round = fins.clone();
        fins.extend(round.iter().cycle().take(more));
        left -= more;
    }
    plain.regions[1].shells = vec![1; times];
    // Where it is nearly as large as the grid, and uneven, its number is no float's.
    if !random.one_in(3) {
        for x in plain.vertices.iter_mut().flat_map(|r| &mut r.point) {
            *x = 50.0 * *x + random.below(257) as f64 / 16.0;
        }
    }
    (
        plain,
        format!("a prism of {count} triangles, its shell listed {times} times"),
    )
}

/// A model of the number, sound or damaged, or one of many triangles; with bodies of both offices.
fn drawn(names: &Names, [seed, number]: [u64; 2], random: &mut Random) -> Option<Made> {
    let sound: &[usize] = &[];
    let mut made = made(
        names,
        Sort::Several,
        seed,
        number,
        random.one_in(2).then_some(sound),
    )?;
    let mut plain = made.plain;
    if random.one_in(12) {
        let (prism, told) = many(random);
        plain = prism;
        made.told = vec![told];
    }
    made.told.push(gridded(&mut plain, random));
    if random.one_in(3) {
        made.told.push(turned(&mut plain, random));
    }
    if random.one_in(3) {
        made.told.extend(again(&mut plain, random));
    }
    if random.one_in(4) {
        made.told.push(loose(&mut plain, random));
    }
    if random.one_in(3) {
        made.told.push(equal(&mut plain, random));
    }
    let offices: Vec<u32> = plain
        .bodies
        .iter()
        .map(|_| random.below(2) as u32)
        .collect();
    plain = plain.of(&offices);
    plain.version = random.pick(&[Version::First, Version::Second]);
    made.told.push(format!("offices {offices:?}"));
    made.model = original::build(&mut plain, names).ok()?;
    made.plain = plain;
    Some(made)
}

// ---- sheets

/// A sheet of any sort: new, full, at its limits and beyond, with a total that carries, of garbage; its largest about the stone's number.
fn any_sheet(number: Option<i128>, random: &mut Random) -> Sheet {
    let bits = random.bits();
    let stones = random.pick(&[
        0,
        0,
        0,
        1,
        1,
        2,
        6,
        6,
        7,
        1_000,
        40_000,
        65_534,
        65_535,
        65_535,
        65_535,
        65_536,
        65_536,
        65_537,
        65_538,
        (1 << 32) + 1,
        u64::MAX,
        bits,
    ]);
    let number = number.unwrap_or(0);
    let most = limit(stones) as i128;
    let near = random.pick(&[most, most, most - 1, most + 1, 0, most / 2]);
    let carries = (1 << 64) - random.pick(&[0, 1, number, number + 1, number - 1, number / 2]);
    let sum = match random.below(8) {
        0..3 => near,
        3..5 => -near,
        5 => carries,
        6 => carries - (1 << 64),
        _ => {
            i128::from(random.bits() as i64) << random.pick(&[0, 20, 64])
                | i128::from(random.bits())
        }
    };
    let largest = random.pick(&[number, number, number - 1, number + 1, 0, -1, -number]) as i64;
    let largest = random.pick(&[largest, largest, largest, i64::MIN, i64::MAX, bits as i64]);
    with_total(&[stones, 0, 0, random.bits(), largest as u64], sum)
}

/// A new sheet, mostly; one of garbage for its largest, since it has none; or one with room that has stones.
fn first_sheet(random: &mut Random) -> Sheet {
    match random.below(4) {
        0 => [0, 0, 0, random.bits(), random.bits()],
        1 => {
            let stones = 1 + random.below(65_000);
            let some = i128::from(random.bits() as i64) * stones as i128 / 4;
            with_total(&[stones as u64, 0, 0, random.bits(), random.bits()], some)
        }
        _ => [0; 5],
    }
}

/// Counts what a stone that is taken is, and what it does to the sheet.
fn counted(tally: &mut Tally, stone: &Stone, take: &Take, taken: &Taken) {
    let number = total(&taken.sheet) - total(&take.sheet);
    let sign = match number.signum() {
        -1 => "below 0",
        0 => "0",
        _ => "above 0",
    };
    tally.met("number", sign);
    if number.unsigned_abs() > 1 << 53 {
        tally.met("number", "above 2^53 in size");
    }
    let largest = match (take.sheet[0], number.cmp(&i128::from(take.sheet[4] as i64))) {
        (0, _) => "the first",
        (_, std::cmp::Ordering::Greater) => "larger",
        (_, std::cmp::Ordering::Equal) => "equal, the first met stays",
        (_, std::cmp::Ordering::Less) => "smaller",
    };
    tally.met("largest", largest);
    if take.sheet[2] != taken.sheet[2] {
        tally.met("total", "another high word");
    }
    if total(&take.sheet).unsigned_abs() == limit(take.sheet[0]) && take.sheet[0] > 0 {
        tally.met("total", "from its limit");
    }
    if take.sheet[0] == 65_535 {
        tally.met("stones", "the last that the sheet has room for");
    }
    let [front, again] = stone.kinds();
    for (is, what) in [(front, "by a front side"), (again, "a face listed again")] {
        if is {
            tally.met("faces", what);
        }
    }
    if stone.triangles() >= 4_095 {
        tally.met("triangles", format!("{} taken", stone.triangles()));
    }
}

// ---- asked

fn answered(
    lent: &Lent,
    stone: &Stone,
    take: &Take,
    random: &mut Random,
    wrong: Option<How>,
) -> Taken {
    let mut given = take.ours(lent, random.bits() as u8, random.pick(&[0, 0, 0, 1, 40]));
    match wrong {
        Some(How::Rule(change)) => {
            let mut rule = Rule::REQUEST;
            change(&mut rule);
            let [right, other] = [Rule::REQUEST, rule].map(|rule| stone.taken(take, &rule).0);
            if right != other {
                given = other;
            }
        }
        Some(How::Told(alter)) => alter(take, &mut given),
        _ => {}
    }
    given
}

/// One sheet handed from body to body, by both offices and at times by one that is none; in between sheets of any sort.
fn takes(
    tally: &mut Tally,
    station: Station,
    stones: &[Stone],
    lent: &mut Lent,
    random: &mut Random,
    wrong: Option<How>,
) {
    let before = lent.clone();
    let bodies = &station.plain.bodies;
    let mut running = first_sheet(random);
    for _ in 0..4 + 2 * bodies.len() {
        let behind = usize::from(random.one_in(6));
        let body = random.below(bodies.len() + behind);
        let own = bodies.get(body).map_or(0, |r| r.office);
        let above = random.pick(&ABOVE);
        let office = random.pick(&[own, own, own, own, own, own, 1 - own, above]);
        // The other's body is asked about as the one behind the last, and so is an id above every table.
        let missing = random.one_in(30);
        let stone = &stones[if missing || office != own {
            bodies.len()
        } else {
            body
        }];
        let body = match missing {
            true => random.pick(&[
                65_535,
                u32::MAX as usize,
                1 << 32,
                (1 << 32) + body,
                usize::MAX,
            ]),
            false => body,
        };
        let runs = random.one_in(2);
        let take = Take {
            office,
            body,
            short: lent.room[3] > 0 && random.one_in(10),
            sheet: if runs {
                running
            } else {
                any_sheet(stone.number(), random)
            },
        };
        let (expected, words) = stone.taken(&take, &Rule::REQUEST);
        tally.met("answer", &words);
        match expected.number {
            0 => counted(tally, stone, &take, &expected),
            5 => tally.met("off the grid", stone.off_grid()),
            8 if words == "8 triangles" => match stone.triangles() {
                4_097 => tally.met("triangles", "4097 refused"),
                _ => tally.met("triangles", "more refused"),
            },
            _ => {}
        }
        lent.office = office;
        let given = answered(lent, stone, &take, random, wrong);
        tally.same("stones taken in", &expected, &given, || format!("{take:?}"));
        if runs {
            running = expected.sheet;
        }
        if matches!(wrong, Some(How::Tables)) && expected.number == 0 {
            lent.reals[0] = lent.reals[0].next_up();
        }
    }
    tally.same(
        "tables behind the stones",
        &true,
        &(*lent == before),
        || "all of them".into(),
    );
}

/// All bodies in two orders, each by its office: the same stones and total, and a largest of the same number.
fn orders(
    tally: &mut Tally,
    station: Station,
    stones: &[Stone],
    lent: &mut Lent,
    random: &mut Random,
    wrong: Option<How>,
) {
    let first = first_sheet(random);
    let mut bodies: Vec<usize> = (0..station.plain.bodies.len()).collect();
    let mut taken = 0;
    let behind = [(); 2].map(|()| {
        for k in (1..bodies.len()).rev() {
            bodies.swap(k, random.below(k + 1));
        }
        let mut sheet = first;
        taken = 0;
        for &body in &bodies {
            let office = station.plain.bodies[body].office;
            let take = Take {
                office,
                body,
                short: false,
                sheet,
            };
            lent.office = office;
            let given = answered(lent, &stones[body], &take, random, wrong);
            taken += usize::from(given.number == 0);
            sheet = given.sheet;
        }
        [sheet[0], sheet[1], sheet[2], sheet[4]]
    });
    tally.met("stones in another order", taken);
    let [one, other] = behind;
    tally.same("sheets in another order", &one, &other, || {
        format!("from {first:?}")
    });
}

/// Memory that cannot be read: 9, whatever office asks, and whatever the sheet is.
fn unreadable(tally: &mut Tally, lent: &Lent, random: &mut Random, wrong: Option<How>) {
    let mut spoiled = lent.clone();
    let what = spoil(&mut spoiled, random);
    let lendable = spoiled.room.iter().zip(LARGEST).all(|(&n, most)| n <= most);
    if !lendable || spoiled.readable() {
        return;
    }
    spoiled.office = random.pick(&[0, 1, 2, u32::MAX]);
    let take = Take {
        office: spoiled.office,
        body: random.below(3),
        short: random.one_in(6),
        sheet: any_sheet(None, random),
    };
    let expected = Taken {
        number: 9,
        sheet: take.sheet,
    };
    let mut given = take.ours(&spoiled, random.bits() as u8, 0);
    if take.office > 1 && matches!(wrong, Some(How::First)) {
        given.number = 1;
    }
    tally.same("garbage", &expected, &given, || format!("{what}: {take:?}"));
}

/// Garbage that can be read, of which the Rust has no likeness: what the volume is refused with, by the station itself.
fn readable(tally: &mut Tally, random: &mut Random) {
    let mut lent = wild(random);
    for body in 0..=(lent.words[0] as usize).min(3) {
        lent.office = random.pick(&[0, 0, 1, 1, 2]);
        let volume = lent.volume(body, 1);
        if volume[0] == 0 {
            tally.met("readable garbage", "with a volume, left out");
            continue;
        }
        let take = Take {
            office: lent.office,
            body,
            short: false,
            sheet: first_sheet(random),
        };
        let expected = Taken {
            number: volume[0] as u32,
            sheet: take.sheet,
        };
        tally.met("readable garbage", volume[0]);
        let given = take.ours(&lent, random.bits() as u8, 0);
        tally.same("readable garbage", &expected, &given, || {
            format!("{take:?}")
        });
    }
}

/// One model, compared.
fn compared(tally: &mut Tally, names: &Names, [seed, number]: [u64; 2], wrong: Option<How>) {
    let mut random = Random::new(seed, number, 670);
    let random = &mut random;
    let Some(made) = drawn(names, [seed, number], random) else {
        return;
    };
    tally.begin(format!(
        "model {number} of seed {seed}: {}",
        made.told.join("; ")
    ));
    let station = Station {
        model: &made.model,
        names,
        plain: &made.plain,
    };
    let bodies = 0..=made.plain.bodies.len();
    let stones: Vec<Stone> = bodies
        .map(|body| {
            let office = made.plain.bodies.get(body).map_or(0, |r| r.office);
            Stone::of(station, office, body)
        })
        .collect();
    for (body, stone) in stones.iter().enumerate() {
        if let Some([rust, whole]) = stone.floats() {
            tally.same("float volumes by the whole numbers", &rust, &whole, || {
                format!("body {body}")
            });
        }
    }
    let mut lent = around(&made.plain, random);
    takes(tally, station, &stones, &mut lent, random, wrong);
    orders(tally, station, &stones, &mut lent, random, wrong);
    unreadable(tally, &lent, random, wrong);
    readable(tally, random);
}

/// "The trial stone gives 589,824": a box of 4 by 3 by 2 mm, once and once more.
fn trial(tally: &mut Tally, names: &Names) {
    let mut plain = Plain::prisms(1, 4);
    for (k, r) in plain.vertices.iter_mut().enumerate() {
        let [x, y] = [[0.0, 0.0], [4.0, 0.0], [4.0, 3.0], [0.0, 3.0]][k % 4];
        r.point = [x, y, [0.0, 2.0][k / 4]];
    }
    let model = original::build(&mut plain, names).expect("the Rust makes it");
    let station = Station {
        model: &model,
        names,
        plain: &plain,
    };
    let stone = Stone::of(station, 0, 0);
    let lent = Lent::holding(&plain, plain.used(), 0, 0.0);
    let mut sheet = [0; 5];
    for stones in 1..=2 {
        let take = Take {
            office: 0,
            body: 0,
            short: false,
            sheet,
        };
        sheet = [stones, stones * 589_824, 0, 0, 589_824];
        let expected = Taken { number: 0, sheet };
        let given = [stone.taken(&take, &Rule::REQUEST).0, take.ours(&lent, 1, 0)];
        tally.same("the trial stone", &[expected; 2], &given, || {
            format!("{take:?}")
        });
    }
}

// ---- all of them

fn over(names: &Names, count: u64, seed: u64) -> ExitCode {
    let mut tally = Tally::default();
    trial(&mut tally, names);
    let mut number = 0;
    while (tally.models as u64) < count {
        number += 1;
        compared(&mut tally, names, [seed, number], None);
    }
    tally.end()
}

/// Each wrong station must be seen on one of the models.
fn wrongs(names: &Names, count: u64, seed: u64) -> ExitCode {
    let mut unseen = 0;
    for (what, how) in WRONGS {
        let mut tally = Tally::quiet();
        let mut number = 0;
        while (tally.models as u64) < count && tally.differing() == 0 {
            number += 1;
            compared(&mut tally, names, [seed, number], Some(how));
        }
        if tally.differing() == 0 {
            println!("a station that {what}: not seen on {count} models");
            unseen += 1;
        } else {
            println!("a station that {what}: seen on model {number}");
        }
    }
    println!("{} wrong stations, {unseen} not seen", WRONGS.len());
    ExitCode::from(u8::from(unseen > 0))
}

fn main() -> ExitCode {
    let words: Vec<String> = env::args().skip(1).collect();
    let (mode, numbers) = match words.split_first() {
        Some((first, rest)) if first.parse::<u64>().is_err() => (first.as_str(), rest),
        _ => ("", &words[..]),
    };
    let numbers: Result<Vec<u64>, _> = numbers.iter().map(|a| a.parse()).collect();
    let (count, seed) = match numbers.as_deref() {
        Ok([]) => (None, 1),
        Ok([count]) => (Some(*count), 1),
        Ok([count, seed]) => (Some(*count), *seed),
        _ => return usage(),
    };
    let names = Names::new();
    match mode {
        "" => over(&names, count.unwrap_or(200_000), seed),
        "wrong" => wrongs(&names, count.unwrap_or(1_000), seed),
        _ => usage(),
    }
}

fn usage() -> ExitCode {
    eprintln!("usage: sheets [models] [seed] | sheets wrong [models] [seed]");
    ExitCode::from(2)
}
