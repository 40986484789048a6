//! The first fault alone (W-207), compared with the first entry of the Rust's full report for the same options (`first.rs`): `first [models] [seed]`;
//! `first wrong [models] [seed]` for wrong stations, each of which must be seen. The exit status is 1 where anything differs.

use std::env;
use std::process::ExitCode;

use calls::first::{Answer, Full, Question};
use calls::first_wrong::{How, WRONGS, doubted};
use calls::layout::{LARGEST, Lent};
use calls::noise::{around as laid, wild};
use calls::offices::Station;
use calls::spoil::spoil;
use calls::tally::Tally;
use models::around::{self, Own};
use models::original::{self, Names, by};
use models::plain::{Carrier, Plain, Version};
use models::random::Random;
use models::{Made, Sort, made};

/// Offices that are none.
const ABOVE: [u32; 5] = [2, 2, 3, 1 << 31, u32::MAX];

/// More samples than there can be.
const TOO_MANY: [usize; 4] = [256, 257, 1 << 32, usize::MAX];

// ---- models

/// A straight edge turned about its start out of a face's plane, so that its samples leave the plane one after the other; the own tolerances of its ends are large.
fn tilted(plain: &mut Plain, random: &mut Random) -> Option<String> {
    let edge = random.below(plain.edges.len().max(1));
    let record = plain.edges.get(edge)?;
    let (start, end) = (record.start?, record.end?);
    let [from, to] = [start, end].map(|id| plain.vertices.get(id).map(|r| r.point));
    let (from, to) = (from?, to?);
    let fin = plain.fins.get(*record.fins.first()?)?;
    let face = plain.faces.get(plain.loops.get(fin.owner)?.face)?;
    let Carrier::Plane(_, normal) = *plain.surfaces.get(face.surface?)? else {
        return None;
    };
    let curve = plain.curves.get_mut(record.curve?)?;
    let off = plain.precision * random.pick(&[16.0, 64.0, 300.0]);
    *curve = Carrier::Line(
        from,
        std::array::from_fn(|i| to[i] - from[i] + normal[i] * off),
    );
    for id in [start, end] {
        plain.vertices[id].tolerance = Some(2.0 * off);
    }
    let part = random.pick(&[0.1, 0.3, 0.4, 0.55, 0.7, 0.78, 0.9]);
    plain.edges[edge].tolerance = Some(off * part);
    Some(format!(
        "edge {edge} leaves its plane at {part} of its length"
    ))
}

/// A face that no shell lists any more, one of whose fins is turned: its loops are not checked, and its edges have two fins of one direction.
fn turned(plain: &mut Plain, random: &mut Random) -> Option<String> {
    let face = random.below(plain.faces.len().max(1));
    let owner = *plain.faces.get(face)?.loops.first()?;
    let fins = &plain.loops.get(owner)?.fins;
    let fin = *fins.get(random.below(fins.len().max(1)))?;
    let record = plain.fins.get_mut(fin)?;
    record.positive = !record.positive;
    for shell in &mut plain.shells {
        shell.faces.retain(|&id| id != face);
    }
    Some(format!("face {face} is not listed, its fin {fin} turned"))
}

/// A model of the number, sound or damaged, with curves, planes and vertices about their tolerances, of either version, with bodies of both offices.
fn drawn(names: &Names, [seed, number]: [u64; 2], random: &mut Random) -> Option<Made> {
    let sound: &[usize] = &[];
    let sound = random.one_in(3).then_some(sound);
    let mut made = made(names, Sort::Several, seed, number, sound)?;
    let mut plain = made.plain;
    plain.version = random.pick(&[Version::First, Version::Second]);
    let sort = match random.below(4) {
        0 => {
            around::tolerances(&mut plain, random);
            Own::Either
        }
        _ => Own::Made,
    };
    for _ in 0..random.pick(&[0, 0, 1, 1, 2]) {
        around::curve(&mut plain, random, sort);
    }
    if random.one_in(4) {
        around::plane(&mut plain, random, sort);
    }
    if random.one_in(4) {
        made.told.extend(tilted(&mut plain, random));
    }
    if random.one_in(12) {
        made.told.extend(turned(&mut plain, random));
    }
    let offices: Vec<u32> = plain
        .bodies
        .iter()
        .map(|_| random.below(2) as u32)
        .collect();
    plain = plain.of(&offices);
    made.told.push(format!("offices {offices:?}"));
    made.model = original::build(&mut plain, names).ok()?;
    made.plain = plain;
    Some(made)
}

// ---- questions

/// Options of any sort, and slots that hold anything.
fn question(office: u32, body: usize, random: &mut Random) -> Question {
    let bits = random.bits() as u32;
    let too_many = random.pick(&TOO_MANY);
    Question {
        office,
        body,
        geometry: random.pick(&[0, 0, 1, 1, 1, 2, 256, 1 << 31, bits]),
        samples: random.pick(&[0, 0, 1, 1, 2, 2, 3, 3, 3, 4, 5, 7, 7, 16, 255, too_many]),
        short: None,
        slots: [0; 5].map(|_| random.pick(&[0, 1, 1, u32::MAX, bits])),
    }
}

/// What the station answers, or a wrong one.
fn answered(
    lent: &Lent,
    asked: &Question,
    full: &Full,
    random: &mut Random,
    wrong: Option<How>,
) -> Answer {
    let (mark, more) = (random.bits() as u8, random.pick(&[0, 0, 0, 1, 40]));
    let mut given = asked.ours(lent, mark, more);
    match wrong {
        Some(How::Told(alter)) => alter(asked, full, &mut given),
        Some(How::Asked(change)) => {
            let mut other = *asked;
            change(lent, &mut other);
            let mut lent = lent.clone();
            lent.office = other.office;
            given = other.ours(&lent, mark, more);
        }
        Some(How::Order(refuses)) => {
            if let Some(number) = refuses(lent, asked) {
                (given.number, given.slots) = (number, asked.slots);
            }
        }
        Some(How::Doubt) => {
            let between = matches!(full, Ok((1.., faults)) if !faults.is_empty());
            if between && doubted(lent, asked) {
                given.slots = [0; 5];
            }
        }
        _ => {}
    }
    given
}

/// Counts what the full report is.
fn counted(tally: &mut Tally, asked: &Question, full: &Full) {
    let geometry = if asked.geometry == 0 {
        "topology"
    } else {
        "geometry"
    };
    match full {
        Err(number) => tally.met("refused", number),
        Ok((unchecked, faults)) => {
            let doubts = if *unchecked > 0 {
                ", some unchecked"
            } else {
                ""
            };
            match faults.first() {
                None => tally.met("none", format!("{geometry}{doubts}")),
                Some([_, _, _, reason]) => {
                    tally.met("first fault", format!("{geometry}{doubts}"));
                    tally.met("first reason", format!("{reason:>2}"));
                    let more = match faults.len() {
                        1 => "the only one",
                        2..8 => "of 2 to 7",
                        _ => "of 8 and more",
                    };
                    tally.met("faults", more);
                }
            }
            let samples = match asked.samples {
                0..4 => asked.samples.to_string(),
                _ => "4 to 255".into(),
            };
            tally.met("samples", samples);
        }
    }
}

/// Bodies of both offices, and missing ones, by both offices and at times by one that is none.
fn asked(
    tally: &mut Tally,
    station: Station,
    lent: &mut Lent,
    random: &mut Random,
    wrong: Option<How>,
) {
    let before = lent.clone();
    let bodies = &station.plain.bodies;
    for _ in 0..2 + bodies.len() {
        let behind = usize::from(random.one_in(6));
        let body = random.below(bodies.len() + behind);
        let own = bodies.get(body).map_or(0, |r| r.office);
        let above = random.pick(&ABOVE);
        let office = random.pick(&[own, own, own, own, own, own, own, own, 1 - own, above]);
        let body = match random.one_in(30) {
            true => random.pick(&[
                65_535,
                u32::MAX as usize,
                1 << 32,
                (1 << 32) + body,
                usize::MAX,
            ]),
            false => body,
        };
        let mut asked = question(office, body, random);
        if random.one_in(12) {
            let short = random.below(2);
            asked.short = (lent.room[[3, 6][short]] > 0).then_some(short);
        }
        lent.office = office;
        let (what, full) = match asked.rust(station) {
            Ok(full) => ("first faults", full),
            // By the station's own report, which is held to 01's rule for it.
            Err(why) => {
                tally.met("no likeness in the Rust", why);
                ("first faults by the station's own report", asked.own(lent))
            }
        };
        counted(tally, &asked, &full);
        if body < bodies.len() && office == 1 - own && full == Err(2) {
            tally.met("refused", "2, the other's");
        }
        let given = answered(lent, &asked, &full, random, wrong);
        tally.same(what, &asked.answer(&full), &given, || format!("{asked:?}"));
        if matches!(wrong, Some(How::Tables)) && given.slots[0] == 1 {
            lent.reals[0] = lent.reals[0].next_up();
        }
    }
    let same = *lent == before;
    tally.same("tables behind the questions", &true, &same, || {
        "all of them".into()
    });
}

/// Memory that cannot be read: 9, whatever office asks, and whatever the options are.
fn unreadable(tally: &mut Tally, lent: &Lent, random: &mut Random, wrong: Option<How>) {
    let mut spoiled = lent.clone();
    let what = spoil(&mut spoiled, random);
    let lendable = spoiled.room.iter().zip(LARGEST).all(|(&n, most)| n <= most);
    if !lendable || spoiled.readable() {
        return;
    }
    spoiled.office = random.pick(&[0, 1, 2, u32::MAX]);
    let asked = question(spoiled.office, random.below(3), random);
    let full = Err(9);
    tally.met("refused", 9);
    let mut given = answered(&spoiled, &asked, &full, random, None);
    if asked.office > 1 && matches!(wrong, Some(How::First)) {
        given.number = 1;
    }
    tally.same("garbage", &asked.answer(&full), &given, || {
        format!("{what}: {asked:?}")
    });
}

/// Garbage that can be read, of which the Rust has no likeness: by the station's own report.
fn readable(tally: &mut Tally, random: &mut Random) {
    let mut lent = wild(random);
    for body in 0..=(lent.words[0] as usize).min(3) {
        lent.office = random.pick(&[0, 0, 1, 1, 2]);
        let mut asked = question(lent.office, body, random);
        asked.samples = asked.samples.min(7);
        let full = asked.own(&lent);
        let what = match &full {
            Err(number) => format!("refused with {number}"),
            Ok((_, faults)) => faults
                .first()
                .map_or("none".into(), |f| format!("reason {:>2}", f[3])),
        };
        tally.met("readable garbage", what);
        let given = answered(&lent, &asked, &full, random, None);
        tally.same("readable garbage", &asked.answer(&full), &given, || {
            format!("{asked:?}")
        });
    }
}

/// One model, compared.
fn compared(tally: &mut Tally, names: &Names, [seed, number]: [u64; 2], wrong: Option<How>) {
    let mut random = Random::new(seed, number, 720);
    let random = &mut random;
    let Some(made) = drawn(names, [seed, number], random) else {
        return;
    };
    tally.begin(format!(
        "model {number} of seed {seed}: {}",
        made.told.join("; ")
    ));
    tally.met("version", made.plain.version as u32);
    let station = Station {
        model: &made.model,
        names,
        plain: &made.plain,
    };
    let mut lent = laid(&made.plain, random);
    by(made.plain.version, || {
        asked(tally, station, &mut lent, random, wrong)
    });
    unreadable(tally, &lent, random, wrong);
    if random.one_in(4) {
        readable(tally, random);
    }
}

// ---- all of them

fn over(names: &Names, count: u64, seed: u64) -> ExitCode {
    let mut tally = Tally::default();
    let mut number = 0;
    while (tally.models as u64) < count {
        number += 1;
        compared(&mut tally, names, [seed, number], None);
    }
    tally.end()
}

/// Each wrong station must be seen on one of the models.
fn wrongs(names: &Names, count: u64, seed: u64) -> ExitCode {
    let mut unseen = 0;
    for (what, how) in WRONGS {
        let mut tally = Tally::quiet();
        let mut number = 0;
        while (tally.models as u64) < count && tally.differing() == 0 {
            number += 1;
            compared(&mut tally, names, [seed, number], Some(how));
        }
        if tally.differing() == 0 {
            println!("a station that {what}: not seen on {count} models");
            unseen += 1;
        } else {
            println!("a station that {what}: seen on model {number}");
        }
    }
    println!("{} wrong stations, {unseen} not seen", WRONGS.len());
    ExitCode::from(u8::from(unseen > 0))
}

fn main() -> ExitCode {
    let words: Vec<String> = env::args().skip(1).collect();
    let (mode, numbers) = match words.split_first() {
        Some((first, rest)) if first.parse::<u64>().is_err() => (first.as_str(), rest),
        _ => ("", &words[..]),
    };
    let numbers: Result<Vec<u64>, _> = numbers.iter().map(|a| a.parse()).collect();
    let (count, seed) = match numbers.as_deref() {
        Ok([]) => (None, 1),
        Ok([count]) => (Some(*count), 1),
        Ok([count, seed]) => (Some(*count), *seed),
        _ => return usage(),
    };
    let names = Names::new();
    match mode {
        "" => over(&names, count.unwrap_or(500_000), seed),
        "wrong" => wrongs(&names, count.unwrap_or(5_000), seed),
        _ => usage(),
    }
}

fn usage() -> ExitCode {
    eprintln!("usage: first [models] [seed] | first wrong [models] [seed]");
    ExitCode::from(2)
}
