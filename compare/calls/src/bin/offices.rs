//! Two drawing offices on one station (W-206), compared with what the request's words make of the Rust (`offices.rs`): `offices [models] [seed]`;
//! `offices apart [models] [seed]` for what one office is told whatever stands in the other's records; `offices wrong [models] [seed]` for wrong
//! stations, each of which must be seen. The exit status is 1 where anything differs.

use std::env;
use std::process::ExitCode;

use calls::layout::{LARGEST, Lent};
use calls::measures::has_slots;
use calls::noise::{record, shaped, wild};
use calls::office_wrong::{How, WRONGS};
use calls::offices::{Ask, Reached, Station, foreign};
use calls::operations::{Operation, Record, list, sequence};
use calls::spoil::spoil;
use calls::tally::Tally;
use gensolid_topo::Model;
use models::offices::edge_for;
use models::original::{self, Names, STRAYS, by};
use models::plain::{Kind, Plain, Version};
use models::random::Random;
use models::{Made, Sort, fraction, made};

/// Offices that are none.
const ABOVE: [u32; 5] = [2, 2, 3, 1 << 31, u32::MAX];

/// Capacities for a model: just what it has, or up to so many more.
fn room(plain: &Plain, spare: &[usize], random: &mut Random) -> [usize; 10] {
    let used = plain.used();
    let spare = random.pick(spare);
    std::array::from_fn(|k| (used[k] + random.below(spare)).min(LARGEST[k]))
}

/// Something that bodies of two offices have in common, or that a walk fails by.
fn tangle(plain: &mut Plain, random: &mut Random) -> Option<String> {
    let used = plain.used();
    let body = random.below(used[0]);
    let regions = plain.bodies[body].regions.clone();
    let region = *regions.get(random.below(regions.len().max(1)))?;
    let shells = plain.regions.get(region)?.shells.clone();
    let shell = *shells.get(random.below(shells.len().max(1)))?;
    Some(match random.below(5) {
        0 => {
            let id = random.below(used[1] + 1);
            plain.bodies[body].regions.push(id);
            format!("body {body} lists region {id} too")
        }
        1 => {
            let id = random.below(used[3] + 1);
            plain.shells.get_mut(shell)?.faces.push(id);
            format!("shell {shell} lists face {id} too")
        }
        2 | 3 => {
            let id = random.below(used[6] + 1);
            plain.shells.get_mut(shell)?.wire_edges.push(id);
            format!("shell {shell} lists wire edge {id} too")
        }
        _ => {
            plain.regions.get_mut(region)?.shells.push(used[2]);
            format!("region {region} lists a shell that is not there")
        }
    })
}

/// A model with bodies of both offices; few of one body alone.
fn mixed(names: &Names, mut made: Made, random: &mut Random) -> Option<Made> {
    if made.plain.bodies.len() == 1 && !random.one_in(6) {
        return None;
    }
    let offices: Vec<u32> = made
        .plain
        .bodies
        .iter()
        .map(|_| random.below(2) as u32)
        .collect();
    let mut plain = made.plain.of(&offices);
    plain.version = original::version();
    for _ in 0..random.pick(&[0, 1, 1, 2]) {
        made.told.extend(tangle(&mut plain, random));
    }
    made.told.push(format!("offices {offices:?}"));
    made.model = original::build(&mut plain, names).ok()?;
    made.plain = plain;
    Some(made)
}

// ---- edits

/// The office that may do the operation, where it names or makes a body that there is.
fn right(operation: &Operation, offices: &[u32], lent: &Lent) -> Option<u32> {
    let there = lent.words[0] as usize;
    let body = match *operation {
        Operation::Insert(Record::Body(_)) => return offices.get(there).copied(),
        Operation::Set(i, Record::Body(_))
        | Operation::Append(0, i, _)
        | Operation::Put(0, i, ..)
        | Operation::Strike(0, i, _) => i,
        _ => return None,
    };
    (body < there).then(|| offices[body])
}

/// Whether it makes or sets a body.
fn makes_or_sets(operation: &Operation) -> bool {
    matches!(
        operation,
        Operation::Insert(Record::Body(_)) | Operation::Set(_, Record::Body(_))
    )
}

/// Whether the call of the operation takes an office.
fn takes_office(operation: &Operation) -> bool {
    makes_or_sets(operation)
        || matches!(
            operation,
            Operation::Append(..) | Operation::Put(..) | Operation::Strike(..)
        )
}

fn carry_out(operation: &Operation, lent: &mut Lent, wrong: Option<How>) -> u32 {
    let before = wrong.map(|_| lent.clone());
    let number = operation.ours(lent);
    match (wrong, before) {
        (Some(How::Edit(wrong)), Some(before)) => wrong(&before, operation, number, lent),
        _ => number,
    }
}

/// By an office that may not: the refusal, and all memory as it was.
fn refused(
    tally: &mut Tally,
    operation: &Operation,
    lent: &mut Lent,
    (office, number): (u32, u32),
    wrong: Option<How>,
) {
    let before = lent.clone();
    lent.office = office;
    let given = (carry_out(operation, lent, wrong), *lent == before);
    tally.met("edits by an office that may not", number);
    tally.same(
        "edits by an office that may not",
        &(number, true),
        &given,
        || format!("{operation:?} by office {office}"),
    );
    lent.clone_from(&before);
}

/// The memory behind an edit of a body: another kind, or a body more with its office and an empty list, whose places are nobody's.
fn edited(before: Lent, operation: &Operation, now: &Lent) -> Lent {
    let mut after = before;
    match operation {
        Operation::Insert(Record::Body(kind)) => {
            let at = after.word_at(0, after.words[0] as usize);
            after.words[at..at + 3].copy_from_slice(&[*kind as u32, now.office, 0]);
            after.words[at + 3..at + 19].copy_from_slice(&now.words[at + 3..at + 19]);
            after.words[0] += 1;
        }
        Operation::Set(body, Record::Body(kind)) => {
            let at = after.word_at(0, *body);
            after.words[at] = *kind as u32;
        }
        _ => unreachable!("no other edit is of a body"),
    }
    after
}

/// The model by operations on both sides, each by the office that may, and before it by ones that may not; all records in the end, and the room.
fn built(
    tally: &mut Tally,
    names: &Names,
    made: &Made,
    random: &mut Random,
    wrong: Option<How>,
) -> Lent {
    let offices = made.plain.offices();
    let room = room(&made.plain, &[1, 1, 3, 9], random);
    let mut lent = Lent::new(room, random.bits() as u32, f64::from_bits(random.bits()));
    let number = lent.make(made.plain.precision, made.plain.version as u32);
    tally.same("making", &0, &number, || "make".into());
    let mut model = Model::new(*made.model.precision());
    for operation in sequence(&made.plain, random) {
        let right = right(&operation, &offices, &lent);
        if takes_office(&operation) && random.one_in(if makes_or_sets(&operation) { 2 } else { 12 })
        {
            let above = (random.pick(&ABOVE), 1);
            refused(tally, &operation, &mut lent, above, wrong);
        }
        let inserts = matches!(operation, Operation::Insert(_));
        if let Some(right) = right.filter(|_| !inserts && random.one_in(2)) {
            refused(tally, &operation, &mut lent, (1 - right, 2), wrong);
        }
        lent.office = right.unwrap_or(random.below(2) as u32);
        let before = makes_or_sets(&operation).then(|| lent.clone());
        let rust = operation.original(&mut model, names, &made.model);
        let ours = carry_out(&operation, &mut lent, wrong);
        tally.met(operation.name(), rust);
        tally.same("edits by the office that may", &rust, &ours, || {
            format!("{operation:?} by office {}", lent.office)
        });
        if let (0, Some(before)) = (rust, before) {
            let after = edited(before, &operation, &lent);
            tally.same(
                "memory behind a body's edit",
                &true,
                &(after == lent),
                || format!("{operation:?}"),
            );
        }
    }
    let rust = original::read(&model, names).of(&offices);
    assert_eq!(
        rust.numbers(),
        made.plain.numbers(),
        "the sequence makes the model"
    );
    records(tally, "records", &rust, &lent);
    full(tally, &made.plain, &mut lent, random, wrong);
    lent
}

/// A full table of bodies, and a full list of one: 8, behind what the office is refused for.
fn full(
    tally: &mut Tally,
    plain: &Plain,
    lent: &mut Lent,
    random: &mut Random,
    wrong: Option<How>,
) {
    let kept = lent.clone();
    let insert = Operation::Insert(Record::of(plain, 0, 0));
    lent.office = random.below(2) as u32;
    for _ in plain.bodies.len()..lent.room[0] {
        tally.same("fills", &0, &insert.ours(lent), || "a body more".into());
    }
    let office = lent.office;
    refused(tally, &insert, lent, (office, 8), wrong);
    refused(tally, &insert, lent, (random.pick(&ABOVE), 1), wrong);
    let body = random.below(plain.bodies.len());
    let append = Operation::Append(0, body, 0);
    lent.office = plain.bodies[body].office;
    for _ in list(plain, 0, body).len()..16 {
        tally.same("fills", &0, &append.ours(lent), || "a region more".into());
    }
    let office = lent.office;
    refused(tally, &append, lent, (office, 8), wrong);
    refused(tally, &append, lent, (1 - office, 2), wrong);
    refused(tally, &append, lent, (random.pick(&ABOVE), 1), wrong);
    *lent = kept;
}

/// All records of all tables, read from both sides.
fn records(tally: &mut Tally, what: &'static str, rust: &Plain, lent: &Lent) {
    tally.compared(what, rust.used().iter().sum());
    let ours = lent.by(0).read().map(|ours| ours.numbers());
    if ours != Ok(rust.numbers()) {
        tally.differs(what, || match ours {
            Ok(ours) => {
                let rust = rust.numbers();
                let table = (0..rust.len()).find(|&k| rust[k] != ours[k]);
                let table = table.expect("the lists differ");
                let (rust, ours) = (&rust[table], &ours[table]);
                format!("table {table}: expected {rust:?}, ours {ours:?}")
            }
            Err(number) => format!("refused with {number}"),
        });
    }
}

// ---- questions

/// A question of each sort about a body.
fn asks(body: usize, random: &mut Random) -> [Ask; 10] {
    let places = random.pick(&[0, 1, 6, 40, 400]);
    let samples = random.pick(&[0, 1, 3, 3, 7, 256, usize::MAX]);
    [
        Ask::Body(body),
        Ask::Contains(0, body),
        Ask::Entry(0, body, random.pick(&[0, 0, 1, 2, 16, usize::MAX])),
        Ask::Walk(0, body, places),
        Ask::Walk(1, body, places),
        Ask::Walk(2, body, places),
        Ask::Box(body),
        Ask::Volume(body),
        Ask::Report(body, random.one_in(2), samples, places),
        Ask::Fit(body),
    ]
}

/// Which of the marks that it is lent lacks a place, at times; it must have one.
fn shortened(ask: Ask, lent: &Lent, random: &mut Random) -> Option<usize> {
    let short = random.below(ask.marks().max(1));
    let has = ask.marks() > 0 && lent.room[[3, 6, 7][short]] > 0;
    (has && random.one_in(6)).then_some(short)
}

fn answered(lent: &Lent, ask: Ask, short: Option<usize>, mark: u8, wrong: Option<How>) -> Vec<u64> {
    let given = ask.ours(lent, short, mark);
    match wrong {
        Some(How::Told(wrong)) => wrong(lent, ask, short, &given).unwrap_or(given),
        _ => given,
    }
}

/// Each sort of question about each body, and about some that are missing, by both offices, at times by one above 1; and the lists and classes that name no body.
fn questions(
    tally: &mut Tally,
    station: Station,
    lent: &mut Lent,
    random: &mut Random,
    wrong: Option<How>,
) {
    let used = station.plain.used();
    let missing = random.pick(&STRAYS);
    for body in (0..=used[0]).chain([missing]) {
        for office in [0, 1, random.pick(&ABOVE)] {
            lent.office = office;
            let j = random.below(9);
            let list = Ask::Entry(j, random.below(4), random.below(3));
            let class = random.below(9) as u32;
            let exists = Ask::Contains(class, random.below(12));
            for ask in asks(body, random).into_iter().chain([list, exists]) {
                if office > 1 && !random.one_in(3) {
                    continue;
                }
                let short = shortened(ask, lent, random);
                let (expected, words) = match station.answer(office, ask, short.is_some()) {
                    Ok(told) => told,
                    Err(why) => {
                        tally.met(ask.name(), format!("left out, {why}"));
                        continue;
                    }
                };
                let sort = match office {
                    0 | 1 if ask.body().is_some_and(|body| foreign(lent, body)) => "the other's: ",
                    _ => "",
                };
                tally.met(ask.name(), format!("{sort}{words}"));
                let given = answered(lent, ask, short, random.bits() as u8, wrong);
                tally.same(ask.name(), &expected, &given, || {
                    format!("{ask:?} by office {office}, short marks {short:?}")
                });
            }
        }
    }
}

/// Memory that cannot be read: 9, whatever office asks.
fn unreadable(tally: &mut Tally, lent: &Lent, random: &mut Random, wrong: Option<How>) {
    let mut spoiled = lent.clone();
    let what = spoil(&mut spoiled, random);
    let lendable = spoiled.room.iter().zip(LARGEST).all(|(&n, most)| n <= most);
    if !lendable || spoiled.readable() {
        return;
    }
    let before = spoiled.clone();
    spoiled.office = random.pick(&[0, 1, 2, u32::MAX]);
    for ask in asks(random.below(3), random) {
        let mut given = ask.ours(&spoiled, shortened(ask, lent, random), 1);
        if spoiled.office > 1 && matches!(wrong, Some(How::First)) {
            given = vec![1];
        }
        tally.same("questions of garbage", &vec![9], &given, || {
            format!("{what}: {ask:?} by office {}", spoiled.office)
        });
    }
    let record = Record::Body(Kind::Solid);
    let numbers = [
        spoiled.insert(&record).err().unwrap_or(0),
        spoiled.set(0, &record),
        spoiled.append(0, 0, 0),
        spoiled.put_entry(1, 0, 0, 0),
        spoiled.strike(0, 0, 0),
    ];
    let given = (numbers, spoiled == before);
    tally.same("edits of garbage", &([9; 5], true), &given, || {
        format!("{what}, by office {}", spoiled.office)
    });
    let given = spoiled.split(0, random.pick(&[0.5, 0.0]));
    tally.same("splits of garbage", &vec![9], &given, || what.into());
}

// ---- splits

fn cut(lent: &mut Lent, (edge, at): (usize, f64), wrong: Option<How>) -> Vec<u64> {
    let before = wrong.map(|_| lent.clone());
    let given = lent.split(edge, at);
    match (wrong, before) {
        (Some(How::Split(wrong)), Some(before)) => {
            wrong(&before, (edge, at), &given, lent).unwrap_or(given)
        }
        _ => given,
    }
}

/// Up to 50 splits one after the other, by both offices in any order; then all records, and all memory where it held zeros.
fn splits(tally: &mut Tally, names: &Names, made: &Made, random: &mut Random, wrong: Option<How>) {
    let mut model = made.model.clone();
    let mut plain = made.plain.clone();
    let zeros = random.one_in(2);
    let noise = (random.bits() as u32, f64::from_bits(random.bits()));
    let noise = if zeros { (0, 0.0) } else { noise };
    let room = room(&plain, &[1, 2, 8, 60], random);
    let mut lent = Lent::holding(&plain, room, noise.0, noise.1);
    for step in 0..random.pick(&[1, 2, 5, 12, 50]) {
        let edges = plain.edges.len();
        let edge = match random.below(4) {
            0 if !made.near.is_empty() => random.pick(&made.near),
            1 => edges.saturating_sub(1),
            _ => random.below(edges + 1),
        };
        let above = random.pick(&ABOVE);
        let office = random.pick(&[0, 0, 0, 0, 1, 1, 1, 1, above]);
        let bounds = original::bounds(&model, names, edge).numbers;
        let at = match random.below(4) {
            0 => fraction(random, plain.precision, &bounds),
            1 => random.part(),
            _ => random.pick(&[0.25, 0.5, 0.75]),
        };
        let asked = if office > 1 {
            edge
        } else {
            edge_for(&model, names, &plain, office, edge)
        };
        let mut after = model.clone();
        let told = original::split(&mut after, names, asked, at);
        let sort = if asked == edge { "" } else { "the other's: " };
        let mut expected = told.numbers;
        if office > 1 {
            tally.met("split", "an office above 1");
            expected = vec![1];
        } else if expected[0] == 0 && !has_slots(&plain, &lent.room, edge) {
            tally.listed("a split without a slot");
            expected = vec![8];
        } else {
            tally.met("split", format!("{sort}{}", told.words));
        }
        lent.office = office;
        let given = cut(&mut lent, (edge, at), wrong);
        tally.same("splits", &expected, &given, || {
            format!("split {step} of edge {edge} at {at:?} by office {office}")
        });
        if expected != given {
            return;
        }
        if expected[0] == 0 {
            model = after;
            plain = original::read(&model, names).of(&plain.offices());
        }
    }
    records(tally, "records behind splits", &plain, &lent);
    if zeros {
        let whole = Lent::holding(&plain, lent.room, 0, 0.0);
        tally.same("memory behind splits", &true, &(whole == lent), || {
            "all of it".into()
        });
    }
}

// ---- readable garbage

/// The memory with every body under one office.
fn all_of(lent: &Lent, office: u32) -> Lent {
    let mut one = lent.by(office);
    for i in 0..lent.words[0] as usize {
        let at = lent.word_at(0, i) + 1;
        one.words[at] = office;
    }
    one
}

/// Garbage that can be read, of which the Rust has no likeness: an office is told of its own bodies as if all were its own, of the other's as of one that is missing,
/// and splits an edge as if all were its own unless the other's walks have it.
fn garbage(tally: &mut Tally, random: &mut Random, wrong: Option<How>) {
    let lent = wild(random);
    let bodies = lent.words[0] as usize;
    for office in [0, 1] {
        let lent = lent.by(office);
        let one = all_of(&lent, office);
        for body in 0..bodies.min(4) {
            for ask in asks(body, random) {
                let short = shortened(ask, &lent, random);
                let as_asked = if foreign(&lent, body) {
                    ask.of(bodies)
                } else {
                    ask
                };
                let expected = as_asked.ours(&one, short, 0);
                let given = answered(&lent, ask, short, 1, wrong);
                tally.same("questions of readable garbage", &expected, &given, || {
                    format!("{ask:?} by office {office}, short marks {short:?}")
                });
            }
        }
        let edge = random.below(lent.words[6] as usize + 1);
        let other = lent.by(1 - office);
        let mut theirs = (0..bodies).filter(|&body| foreign(&lent, body));
        let has = |body| {
            let walk = Ask::Walk(1, body, 1 << 14).ours(&other, None, 0);
            walk[0] == 0 && walk[1..].contains(&(edge as u64))
        };
        let asked = if theirs.any(has) {
            lent.words[6] as usize
        } else {
            edge
        };
        let (mut given, mut expected) = (lent.clone(), one);
        let numbers = [
            cut(&mut given, (edge, 0.5), wrong),
            expected.split(asked, 0.5),
        ];
        let same = numbers[0] == numbers[1] && all_of(&given, office) == expected;
        tally.same("splits of readable garbage", &true, &same, || {
            format!("edge {edge} by office {office}: {numbers:?}")
        });
    }
}

/// One model, compared.
fn compared(tally: &mut Tally, names: &Names, [seed, number]: [u64; 2], wrong: Option<How>) {
    let mut random = Random::new(seed, number, 650);
    let random = &mut random;
    let Some(made) = made(names, Sort::Several, seed, number, None) else {
        return;
    };
    let version = random.pick(&[Version::First, Version::First, Version::Second]);
    by(version, || {
        let Some(made) = mixed(names, made, random) else {
            return;
        };
        tally.begin(format!(
            "model {number} of seed {seed}: {}",
            made.told.join("; ")
        ));
        let station = Station {
            model: &made.model,
            names,
            plain: &made.plain,
        };
        let mut lent = built(tally, names, &made, random, wrong);
        questions(tally, station, &mut lent, random, wrong);
        unreadable(tally, &lent, random, wrong);
        splits(tally, names, &made, random, wrong);
        garbage(tally, random, wrong);
    });
}

// ---- whatever stands in the other's records

/// Everything that is not reached from the asker's bodies replaced, with counts that leave each id that was met naming a record or none as it did.
fn replaced(lent: &Lent, reached: &Reached, random: &mut Random) -> Lent {
    let mut other = lent.clone();
    for k in 0..10 {
        let (least, most) = reached.counts[k];
        let count = match random.below(4) {
            0 => least + random.below(most.max(least) - least + 1),
            1 => least,
            _ => lent.words[k] as usize,
        };
        other.words[k] = count as u32;
        for i in (0..count).filter(|&i| reached.records[k].get(i) != Some(&true)) {
            record(&mut other, k, i, random);
            let from = random.below(count);
            if random.one_in(3) && reached.records[k].get(from) == Some(&true) {
                copy(&mut other, k, from, i);
            }
            if k == 0 {
                let at = other.word_at(0, i) + 1;
                other.words[at] = 1 - lent.office;
            }
        }
    }
    other
}

/// A record copied to another slot of its table.
fn copy(lent: &mut Lent, k: usize, from: usize, to: usize) {
    let (a, b, c) = (
        lent.word_at(k, from),
        lent.word_at(k, from + 1),
        lent.word_at(k, to),
    );
    lent.words.copy_within(a..b, c);
    let (a, b, c) = (
        lent.real_at(k, from),
        lent.real_at(k, from + 1),
        lent.real_at(k, to),
    );
    lent.reals.copy_within(a..b, c);
}

/// What the asker is told of its bodies: walks, reports, fit to saw, box and volume.
fn all_told(lent: &Lent, asks: &[Ask]) -> Vec<Vec<u64>> {
    asks.iter().map(|ask| ask.ours(lent, None, 0)).collect()
}

/// One model before and after, where something of it is not reached. A wrong one is asked with something changed that is.
fn apart(tally: &mut Tally, [seed, number]: [u64; 2], wrong: Option<How>) {
    let mut random = Random::new(seed, number, 660);
    let random = &mut random;
    let (mut lent, told) = match random.below(4) {
        0 => (wild(random), "wild".into()),
        _ => shaped(random),
    };
    if !lent.readable() {
        return;
    }
    lent.office = random.below(2) as u32;
    let own: Vec<usize> = (0..lent.words[0] as usize)
        .filter(|&body| !foreign(&lent, body))
        .take(5)
        .collect();
    if own.is_empty() {
        return;
    }
    let reached = Reached::of(&lent);
    let mut other = replaced(&lent, &reached, random);
    let kept: usize = reached.records.iter().flatten().filter(|&&r| r).count();
    let all: usize = other.words[..10].iter().map(|&n| n as usize).sum();
    if all == kept {
        return;
    }
    tally.begin(format!(
        "model {number} of seed {seed}, office {}: {told}",
        lent.office
    ));
    tally.compared("records that are not reached, replaced", all - kept);
    tally.met("own bodies", own.len());
    match wrong {
        Some(How::Apart(k)) => {
            let ids: Vec<usize> = (0..reached.records[k].len())
                .filter(|&i| reached.records[k][i])
                .collect();
            if let Some(&i) = ids.get(random.below(ids.len().max(1))) {
                record(&mut other, k, i, random);
                if k == 0 {
                    let at = other.word_at(0, i) + 1;
                    other.words[at] = lent.office;
                }
            }
        }
        Some(How::Count) => {
            for k in (1..10).filter(|&k| reached.counts[k].1 < lent.room[k]) {
                let most = reached.counts[k].1;
                for i in other.words[k] as usize..=most {
                    record(&mut other, k, i, random);
                }
                other.words[k] = most as u32 + 1;
            }
        }
        _ => {}
    }
    assert!(other.readable(), "what is replaced can be read");
    let asks: Vec<Ask> = own
        .into_iter()
        .flat_map(|body| {
            let samples = random.pick(&[0, 1, 3, 7, 20]);
            let places = random.pick(&[0, 3, 100]);
            [
                Ask::Body(body),
                Ask::Contains(0, body),
                Ask::Walk(0, body, 2000),
                Ask::Walk(1, body, 2000),
                Ask::Walk(2, body, 2000),
                Ask::Box(body),
                Ask::Volume(body),
                Ask::Report(body, false, samples, places),
                Ask::Report(body, true, samples, places),
                Ask::Fit(body),
            ]
        })
        .collect();
    let [before, after] = [&lent, &other].map(|lent| all_told(lent, &asks));
    for (ask, (before, after)) in asks.into_iter().zip(before.iter().zip(&after)) {
        tally.met(
            ask.name(),
            if before[0] == 0 {
                "given".into()
            } else {
                before[0].to_string()
            },
        );
        tally.same(ask.name(), before, after, || format!("{ask:?}"));
    }
}

// ---- all of them

fn over(count: u64, one: impl Fn(&mut Tally, u64)) -> ExitCode {
    let mut tally = Tally::default();
    let mut number = 0;
    while (tally.models as u64) < count {
        number += 1;
        one(&mut tally, number);
    }
    tally.end()
}

/// Each wrong station must be seen on one of the models.
fn wrongs(names: &Names, count: u64, seed: u64) -> ExitCode {
    let mut unseen = 0;
    for (what, how) in WRONGS {
        let mut tally = Tally::quiet();
        let mut number = 0;
        while (tally.models as u64) < count && tally.differing() == 0 {
            number += 1;
            match how {
                How::Apart(_) | How::Count => apart(&mut tally, [seed, number], Some(how)),
                _ => compared(&mut tally, names, [seed, number], Some(how)),
            }
        }
        if tally.differing() == 0 {
            println!("a station that {what}: not seen on {count} models");
            unseen += 1;
        } else {
            println!("a station that {what}: seen on model {number}");
        }
    }
    println!("{} wrong stations, {unseen} not seen", WRONGS.len());
    ExitCode::from(u8::from(unseen > 0))
}

fn main() -> ExitCode {
    let words: Vec<String> = env::args().skip(1).collect();
    let (mode, numbers) = match words.split_first() {
        Some((first, rest)) if first.parse::<u64>().is_err() => (first.as_str(), rest),
        _ => ("", &words[..]),
    };
    let numbers: Result<Vec<u64>, _> = numbers.iter().map(|a| a.parse()).collect();
    let (count, seed) = match numbers.as_deref() {
        Ok([]) => (None, 1),
        Ok([count]) => (Some(*count), 1),
        Ok([count, seed]) => (Some(*count), *seed),
        _ => return usage(),
    };
    let names = Names::new();
    match mode {
        "" => over(count.unwrap_or(20_000), |tally, number| {
            compared(tally, &names, [seed, number], None);
        }),
        "apart" => over(count.unwrap_or(200_000), |tally, number| {
            apart(tally, [seed, number], None);
        }),
        "wrong" => wrongs(&names, count.unwrap_or(1000), seed),
        _ => usage(),
    }
}

fn usage() -> ExitCode {
    eprintln!(
        "usage: offices [models] [seed] | offices apart [models] [seed] | offices wrong [models] [seed]"
    );
    ExitCode::from(2)
}
