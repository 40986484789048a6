//! Random models, compared as `calls` does, by the station's larger calls: `measures splits | boxes | reports
//! [models] [seed]`; `measures wrong` for wrong stations, each of which must be seen. The exit status is 1 where
//! anything differs.

use std::env;
use std::process::ExitCode;

use calls::layout::{LARGEST, LISTS, Lent, VERSION};
use calls::measures::has_slots;
use calls::spoil::spoil;
use calls::tally::Tally;
use gensolid_core::{Tolerance, effective_tolerance};
use gensolid_topo::Model;
use models::around::{self, Own};
use models::original::{self, Names, Rule, by, published, ruled, version};
use models::plain::{Plain, Version};
use models::random::Random;
use models::{Made, Sort, either, fraction, made, unlisted};

/// What a wrong station is, and what it makes of a right answer: of a split, with the memory before and
/// behind it; of a box or a volume; of a report and the number of its faults; of a verdict about a body.
type Wrong = (&'static str, How);

#[derive(Clone, Copy)]
enum How {
    Split(fn(&Lent, &mut Lent, usize, &[u64]) -> Option<Vec<u64>>),
    Box(fn(&[u64]) -> Option<Vec<u64>>),
    Volume(fn(&[u64]) -> Option<Vec<u64>>),
    Report(fn(&(Vec<u64>, usize)) -> Option<(Vec<u64>, usize)>),
    Fit(fn(&Lent, usize, &[u64]) -> Option<Vec<u64>>),
    /// Splits by the published sums.
    Sums,
    /// Splits, reports and verdicts of models of a version, by another rule for the tolerance in effect.
    SplitBy(Version, Rule),
    ReportBy(Version, Rule),
    FitBy(Version, Rule),
    /// Reports of models of version 2, by its rule for the edges alone or for the vertices alone.
    ReportEdges,
    ReportVertices,
}

/// What another rule for the tolerance in effect would answer, of a model of that version.
fn by_other<T>(of: Version, rule: Rule, ask: impl FnOnce() -> T) -> Option<T> {
    (version() == of).then(|| ruled(rule, ask))
}

/// The model with the tolerances in effect in the place of the own ones, of the edges or of the vertices.
fn settled(model: &Model, names: &Names, edges: bool) -> Model {
    let plain = original::read(model, names);
    let precision = *model.precision();
    let settle = |own: &mut Option<Tolerance>| {
        let in_effect = own.map(|own| effective_tolerance(Some(own), &precision));
        *own = original::own(in_effect).expect("one of the two is a tolerance");
    };
    let mut other = model.clone();
    let mut raw = other.raw();
    if edges {
        let ids = (0..plain.edges.len()).map(|i| names.edges[i]);
        ids.for_each(|id| settle(&mut raw.edge_mut(id).expect("an edge").tolerance));
    } else {
        let ids = (0..plain.vertices.len()).map(|i| names.vertices[i]);
        ids.for_each(|id| settle(&mut raw.vertex_mut(id).expect("a vertex").tolerance));
    }
    other
}

/// What a station would say that found fit to saw by another report: with geometry or not, of so many samples, and by what counts.
fn fit_by(
    lent: &Lent,
    body: usize,
    (geometry, samples): (bool, usize),
    counts: fn(usize, u64) -> bool,
) -> Option<Vec<u64>> {
    match lent.check(body, geometry, samples, 0, 0) {
        (given, faults) if given[0] == 0 => Some(vec![0, counts(faults, given[1]).into()]),
        _ => None,
    }
}

/// W-203's questions, off the lent words: is the body solid, has one of its regions a face (the solid ones alone, or all), is each shell that a face names one of the
/// body's, and does it list the face? A wrong station leaves one out.
fn whole(lent: &Lent, body: usize, solid_alone: bool) -> [bool; 4] {
    let list = |j, i: u32| lent.words[list_at(lent, j, i as usize)].to_vec();
    let regions = list(0, body as u32);
    let shells: Vec<u32> = regions.iter().flat_map(|&r| list(1, r)).collect();
    let solid = |&r: &u32| !solid_alone || lent.words[lent.word_at(1, r as usize) + 1] != 0;
    let faced = regions.iter().copied().filter(|r| solid(r)).flat_map(|r| list(1, r));
    let faced = faced.into_iter().any(|s| !list(2, s).is_empty());
    let faces: Vec<u32> = shells.iter().flat_map(|&s| list(2, s)).collect();
    let sides = faces.iter().flat_map(|&f| {
        let at = lent.word_at(3, f as usize);
        [at, at + 2].into_iter().filter(|&at| lent.words[at] != 0).map(move |at| (f, at + 1))
    });
    let sides: Vec<(u32, u32)> = sides.map(|(f, at)| (f, lent.words[at])).collect();
    let lists = |f: u32, s: u32| s < lent.words[2] && list(2, s).contains(&f);
    [
        lent.words[lent.word_at(0, body)] == 3,
        faced,
        sides.iter().all(|(_, s)| shells.contains(s)),
        sides.iter().all(|&(f, s)| lists(f, s)),
    ]
}

/// What a station would say that leaves one of those questions out, where the report is valid.
fn fit_without(lent: &Lent, body: usize, left_out: usize) -> Option<Vec<u64>> {
    fit_by(lent, body, (true, 3), |faults, unchecked| faults == 0 && unchecked == 0)
        .filter(|given| given[1] == 1)
        .map(|_| {
            let asked = whole(lent, body, left_out != 4);
            vec![0, (0..4).all(|k| k == left_out || asked[k]).into()]
        })
}

/// List j of record i, in the words.
fn list_at(lent: &Lent, j: usize, i: usize) -> std::ops::Range<usize> {
    let (table, place, ..) = LISTS[j];
    let at = lent.word_at(table, i) + place;
    at + 1..at + 1 + lent.words[at] as usize
}

/// The old fins of a split edge, each with the new one; a fin that does not run against the edge is left out.
fn turned(before: &Lent, edge: usize) -> Vec<(u32, u32)> {
    let fins = &before.words[list_at(before, 7, edge)];
    let new = before.words[5]..;
    let negative = |&(fin, _): &(u32, u32)| {
        before.words[before.word_at(5, fin as usize) + 2] != 0
    };
    fins.iter().copied().zip(new).filter(negative).collect()
}

const WRONGS: [Wrong; 40] = [
    ("moves every sum", How::Sums),
    ("splits a model of version 1 by the larger tolerance", How::SplitBy(Version::First, Rule::Larger)),
    ("splits a model of version 2 by its own tolerances", How::SplitBy(Version::Second, Rule::Published)),
    ("splits a model of version 2 by the smaller tolerance", How::SplitBy(Version::Second, Rule::Smaller)),
    ("reports by the larger tolerance on a model of version 1", How::ReportBy(Version::First, Rule::Larger)),
    ("reports by its own tolerances on a model of version 2", How::ReportBy(Version::Second, Rule::Published)),
    ("reports by the smaller tolerance on a model of version 2", How::ReportBy(Version::Second, Rule::Smaller)),
    ("reports by version 2 for the edges alone", How::ReportEdges),
    ("reports by version 2 for the vertices alone", How::ReportVertices),
    ("finds fit to saw a model of version 1 by the larger tolerance", How::FitBy(Version::First, Rule::Larger)),
    ("finds not fit to saw a model of version 2 by its own tolerances", How::FitBy(Version::Second, Rule::Published)),
    ("makes a model that it splits one of version 1", How::Split(|_, lent, _, given| {
        lent.words[VERSION] = 1;
        Some(given.to_vec())
    })),
    ("puts every new fin after the old one", How::Split(|before, lent, edge, given| {
        for (old, new) in turned(before, edge) {
            let owner = before.words[before.word_at(5, old as usize)] as usize;
            let list = list_at(lent, 6, owner);
            let fins = &mut lent.words[list];
            if let Some(at) = fins.windows(2).position(|pair| pair == [new, old]) {
                fins.swap(at, at + 1);
            }
        }
        Some(given.to_vec())
    })),
    ("leaves the old edge's end", How::Split(|before, lent, edge, given| {
        let at = lent.word_at(6, edge) + 3;
        lent.words[at] = before.words[at];
        Some(given.to_vec())
    })),
    ("gives the second half the old start", How::Split(|before, lent, edge, given| {
        let at = lent.word_at(6, given[2] as usize) + 1;
        lent.words[at] = before.words[before.word_at(6, edge) + 1];
        Some(given.to_vec())
    })),
    ("gives the new vertex no tolerance of its own", How::Split(|_, lent, _, given| {
        let at = lent.word_at(7, given[3] as usize);
        lent.words[at] = 0;
        Some(given.to_vec())
    })),
    ("lists one new fin fewer in the new edge", How::Split(|_, lent, _, given| {
        let at = lent.word_at(6, given[2] as usize) + 7;
        lent.words[at] = lent.words[at].saturating_sub(1);
        Some(given.to_vec())
    })),
    ("puts the new wire edge last", How::Split(|before, lent, edge, given| {
        for shell in 0..before.words[2] as usize {
            let list = list_at(lent, 3, shell);
            let wires = &mut lent.words[list];
            if let Some(at) = wires.iter().position(|&id| id as usize == edge) {
                wires[at + 1..].rotate_left(1);
            }
        }
        Some(given.to_vec())
    })),
    ("exchanges the box's corners", How::Box(|given| match given {
        [0, a, b, c, rest @ ..] => Some([&[0], rest, &[*a, *b, *c]].concat()),
        _ => None,
    })),
    ("gives 4 where a record is missing", How::Box(|given| (given == [2]).then(|| vec![4]))),
    ("gives a volume that is one float off", How::Volume(|given| match given {
        [0, v] => Some(vec![0, f64::from_bits(*v).next_up().to_bits()]),
        _ => None,
    })),
    ("turns the volume's sign", How::Volume(|given| match given {
        [0, v] => Some(vec![0, (-f64::from_bits(*v)).to_bits()]),
        _ => None,
    })),
    ("gives 4 for a body that is not solid", How::Volume(|given| (given == [6]).then(|| vec![4]))),
    ("counts the faults kept alone", How::Report(|(given, _)| {
        Some((given.clone(), given.len().saturating_sub(2) / 4))
    })),
    ("leaves `unchecked` at 0", How::Report(|(given, total)| {
        let mut given = given.clone();
        *given.get_mut(1)? = 0;
        Some((given, *total))
    })),
    ("tells the last fault first", How::Report(|(given, total)| {
        let mut given = given.clone();
        let faults = given.get_mut(2..)?;
        let last = faults.len().min(4);
        faults.rotate_right(last);
        Some((given, *total))
    })),
    ("says another reason of the same kind", How::Report(|(given, total)| {
        let mut given = given.clone();
        let reason = given.get_mut(2)?;
        *reason = if *reason == 5 { 3 } else { *reason };
        Some((given, *total))
    })),
    ("finds every body fit to saw", How::Fit(|_, _, given| {
        (given[0] == 0).then(|| vec![0, 1])
    })),
    ("finds no body fit to saw", How::Fit(|_, _, given| {
        (given[0] == 0).then(|| vec![0, 0])
    })),
    ("finds a body that is not there not fit to saw", How::Fit(|_, _, given| {
        (given == [2]).then(|| vec![0, 0])
    })),
    ("finds fit to saw by the topology alone", How::Fit(|lent, body, _| {
        fit_by(lent, body, (false, 3), |faults, unchecked| faults == 0 && unchecked == 0)
    })),
    ("finds fit to saw without samples", How::Fit(|lent, body, _| {
        fit_by(lent, body, (true, 0), |faults, unchecked| faults == 0 && unchecked == 0)
    })),
    ("finds fit to saw what is unchecked", How::Fit(|lent, body, _| {
        fit_by(lent, body, (true, 3), |faults, _| faults == 0)
    })),
    ("finds fit to saw what has one fault", How::Fit(|lent, body, _| {
        fit_by(lent, body, (true, 3), |faults, unchecked| faults <= 1 && unchecked == 0)
    })),
    ("finds fit to saw by the report alone", How::Fit(|lent, body, _| {
        fit_by(lent, body, (true, 3), |faults, unchecked| faults == 0 && unchecked == 0)
    })),
    ("finds fit to saw what is no solid", How::Fit(|lent, body, _| fit_without(lent, body, 0))),
    ("finds fit to saw a solid without a face", How::Fit(|lent, body, _| fit_without(lent, body, 1))),
    ("finds fit to saw a face with another body's shell", How::Fit(|lent, body, _| fit_without(lent, body, 2))),
    ("finds fit to saw a face that its shell does not list", How::Fit(|lent, body, _| fit_without(lent, body, 3))),
    ("finds fit to saw a face in the void alone", How::Fit(|lent, body, _| fit_without(lent, body, 4))),
];

/// Capacities for a model: at times just what it has, mostly more.
fn room(plain: &Plain, random: &mut Random) -> [usize; 10] {
    let used = plain.used();
    let spare = random.pick(&[1, 2, 8, 60, 250]);
    std::array::from_fn(|k| (used[k] + random.below(spare)).min(LARGEST[k]))
}

fn laid(plain: &Plain, random: &mut Random) -> Lent {
    let room = room(plain, random);
    let noise = (random.bits() as u32, f64::from_bits(random.bits()));
    Lent::holding(plain, room, noise.0, noise.1)
}

/// The memory spoiled so that it cannot be read: 9, whatever is asked. A room above the largest asks for more marks than there can be.
fn garbage(lent: &Lent, random: &mut Random) -> Option<(Lent, &'static str)> {
    let mut spoiled = lent.clone();
    let what = spoil(&mut spoiled, random);
    let lendable = spoiled.room.iter().zip(LARGEST).all(|(&n, most)| n <= most);
    (lendable && !spoiled.readable()).then_some((spoiled, what))
}

/// Up to 50 splits, one after the other, on both sides.
fn splits(
    tally: &mut Tally,
    names: &Names,
    mut made: Made,
    random: &mut Random,
    wrong: Option<How>,
) {
    let mut near = made.near.clone();
    if random.one_in(2) {
        let mut plain = made.plain.clone();
        let edge = match random.below(2) {
            0 => around::plane(&mut plain, random, Own::Made),
            _ => around::ends(&mut plain, random),
        };
        if let Some(edge) = edge
            && let Ok(model) = original::build(&mut plain, names)
        {
            near = vec![edge];
            (made.model, made.plain) = (model, plain);
        }
    }
    let mut model: Model = made.model;
    let mut plain = made.plain;
    let mut lent = laid(&plain, random);
    let count = random.pick(&[1, 2, 5, 12, 50]);
    for step in 0..count {
        let edges = plain.edges.len();
        let edge = match random.below(4) {
            0 if !near.is_empty() => random.pick(&near),
            1 => edges.saturating_sub(1),
            _ => random.below(edges + 1),
        };
        let bounds = original::bounds(&model, names, edge).numbers;
        let part = random.part();
        let at = match random.below(3) {
            0 => fraction(random, plain.precision, &bounds),
            1 => random.pick(&[0.25, 0.5, 0.75]),
            _ => part,
        };
        let was = published(|| original::split(&mut model.clone(), names, edge, at));
        let mut after = model.clone();
        let mut expected = original::split(&mut after, names, edge, at);
        tally.met("split", &expected.words);
        let by_sums = expected.numbers.clone();
        if was.numbers != by_sums {
            tally.met("W-205, split", format!("{} was {}", expected.words, was.words));
        }
        if version() == Version::Second {
            let first = by(Version::First, || original::split(&mut model.clone(), names, edge, at));
            if first.numbers != by_sums {
                tally.met("version 2, splits that version 1 would answer otherwise", format!("{}, not {}", expected.words, first.words));
            }
        }
        let other = match wrong {
            Some(How::SplitBy(of, rule)) => by_other(of, rule, || original::split(&mut model.clone(), names, edge, at).numbers),
            Some(How::Sums) => Some(was.numbers),
            _ => None,
        };
        if !expected.refused() && !has_slots(&plain, &lent.room, edge) {
            tally.listed("a split without a slot");
            expected.numbers = vec![8];
        } else {
            model = after;
        }
        let before = lent.clone();
        let mut given = lent.split(edge, at);
        if let (Some(How::Split(wrong)), [0, ..]) = (wrong, &given[..])
            && let Some(other) = wrong(&before, &mut lent, edge, &given)
        {
            given = other;
        }
        if let Some(other) = other.filter(|other| *other != by_sums) {
            given = other;
        }
        tally.same("splits", &expected.numbers, &given, || {
            format!("split {step} of edge {edge} at {at:?}")
        });
        if !expected.refused() {
            plain = original::read(&model, names).of(&plain.offices());
        }
        if expected.numbers != given {
            return;
        }
    }
    tally.compared("records behind splits", plain.used().iter().sum());
    match lent.read() {
        Ok(ours) if ours.numbers() == plain.numbers() => {}
        other => tally.differs("records behind splits", || {
            let (rust, ours) = (plain.numbers(), other.map(|ours| ours.numbers()));
            let table = ours
                .as_ref()
                .ok()
                .and_then(|ours| (0..rust.len()).find(|&k| rust[k] != ours[k]));
            format!(
                "table {table:?}: expected {:?}, ours {:?}",
                table.map(|k| &rust[k]),
                ours.as_ref().map(|ours| table.map(|k| &ours[k]))
            )
        }),
    }
}

fn boxes(
    tally: &mut Tally,
    names: &Names,
    made: &Made,
    random: &mut Random,
    wrong: Option<How>,
) {
    let lent = laid(&made.plain, random);
    for body in 0..=made.plain.bodies.len() {
        let mark = random.bits() as u8;
        let told = original::boxed(&made.model, names, body);
        tally.met("box", &told.words);
        let mut given = lent.bounding_box(body, mark);
        if let Some(How::Box(wrong)) = wrong {
            given = wrong(&given).unwrap_or(given);
        }
        tally.same("boxes", &told.numbers, &given, || format!("body {body}"));
        let told = original::volume(&made.model, names, body);
        tally.met("volume", &told.words);
        let mut given = lent.volume(body, mark);
        if let Some(How::Volume(wrong)) = wrong {
            given = wrong(&given).unwrap_or(given);
        }
        tally.same("volumes", &told.numbers, &given, || format!("body {body}"));
    }
    if let Some((spoiled, what)) = garbage(&lent, random) {
        let body = random.below(made.plain.bodies.len() + 1);
        let given = [spoiled.bounding_box(body, 1), spoiled.volume(body, 1)];
        tally.same("boxes and volumes of garbage", &[vec![9], vec![9]], &given, || what.into());
    }
}

/// What W-205 changes of a report: `unchecked` falls, or turns into reason 22.
fn sums(tally: &mut Tally, was: &[u64], now: &[u64]) {
    if was == now {
        return;
    }
    let off = |report: &[u64]| report[2..].chunks(4).filter(|fault| fault[0] == 22).count();
    let (fell, more) = (was[1] as i64 - now[1] as i64, off(now) as i64 - off(was) as i64);
    let others = |report: &[u64]| -> Vec<u64> {
        report[2..].chunks(4).filter(|fault| fault[0] != 22).flatten().copied().collect()
    };
    let other = if others(was) == others(now) && more >= 0 && fell >= more { "" } else { ", and more than that" };
    tally.met("W-205, report", format!("unchecked {} fewer, reason 22 {more} more{other}", if fell > 3 { "over 3".into() } else { fell.to_string() }));
}

/// A report as a list of so many places keeps it, and how many faults there are in all.
fn kept(mut report: Vec<u64>, places: usize) -> (Vec<u64>, usize) {
    let refused = report[0] != 0;
    let faults = report.len().saturating_sub(2) / 4;
    report.truncate(if refused { 1 } else { 2 + 4 * places });
    (report, if refused { 0 } else { faults })
}

/// Another report than the Rust's, by a wrong rule for the tolerance in effect.
fn misreported(
    wrong: Option<How>,
    model: &Model,
    names: &Names,
    (body, geometry, samples): (usize, bool, usize),
) -> Option<Vec<u64>> {
    let report = |model: &Model| original::report(model, names, body, geometry, samples);
    let other = match wrong? {
        How::ReportBy(of, rule) => by_other(of, rule, || report(model)),
        // With what version 2's rule gives as the own tolerances, and by the own ones.
        How::ReportEdges | How::ReportVertices => {
            let model = settled(model, names, matches!(wrong, Some(How::ReportEdges)));
            by_other(Version::Second, Rule::Published, || report(&model))
        }
        _ => None,
    };
    other?.ok().map(|told| told.numbers)
}

fn reports(
    tally: &mut Tally,
    names: &Names,
    made: &Made,
    random: &mut Random,
    wrong: Option<How>,
) {
    let lent = laid(&made.plain, random);
    for body in 0..=made.plain.bodies.len() {
        for geometry in [false, true] {
            let samples = random.pick(&[0, 1, 3, 3, 7, 255]);
            let mark = random.bits() as u8;
            let told = match original::report(&made.model, names, body, geometry, samples) {
                Ok(told) => told,
                Err(why) => {
                    tally.met("reports left out", why);
                    continue;
                }
            };
            tally.met("report", &told.words);
            let was = published(|| original::report(&made.model, names, body, geometry, samples));
            match was {
                Ok(was) => sums(tally, &was.numbers, &told.numbers),
                Err(why) => tally.met("W-205, report", format!("was left out, {why}")),
            }
            if version() == Version::Second {
                let first = by(Version::First, || original::report(&made.model, names, body, geometry, samples));
                if first.is_ok_and(|first| first.numbers != told.numbers) {
                    tally.met("version 2, reports that version 1 would give otherwise", &told.words);
                }
            }
            let other = misreported(wrong, &made.model, names, (body, geometry, samples));
            let faults = told.numbers.len().saturating_sub(2) / 4;
            let places = match random.below(3) {
                0 => random.below(faults + 1),
                1 => faults,
                _ => faults + random.below(9),
            };
            let other = other.filter(|other| *other != told.numbers);
            let expected = kept(told.numbers, places);
            for fault in expected.0.get(2..).unwrap_or(&[]).chunks(4) {
                tally.met("reasons", format!("{:>2}", fault[0]));
            }
            let mut given = lent.check(body, geometry, samples, places, mark);
            if let Some(How::Report(wrong)) = wrong {
                given = wrong(&given).unwrap_or(given);
            }
            if let Some(other) = other {
                given = kept(other, places);
            }
            tally.same("reports", &expected, &given, || {
                format!("body {body}, geometry {geometry}, {samples} samples, {places} places")
            });
        }
    }
    for body in 0..=made.plain.bodies.len() {
        let told = match original::verdict(&made.model, names, body) {
            Ok(told) => told,
            Err(why) => {
                tally.met("verdicts left out", why);
                continue;
            }
        };
        tally.met("verdict", &told.words);
        let was = published(|| original::verdict(&made.model, names, body));
        if was.is_ok_and(|was| was.numbers != told.numbers) {
            tally.met("W-205, verdict", &told.words);
        }
        if version() == Version::Second {
            let first = by(Version::First, || original::verdict(&made.model, names, body));
            if first.is_ok_and(|first| first.numbers != told.numbers) {
                tally.met("version 2, verdicts that version 1 would give otherwise", &told.words);
            }
        }
        let mut given = lent.fit(body, random.bits() as u8);
        match wrong {
            Some(How::Fit(wrong)) => given = wrong(&lent, body, &given).unwrap_or(given),
            Some(How::FitBy(of, rule)) => {
                let other = by_other(of, rule, || original::verdict(&made.model, names, body));
                given = other.and_then(Result::ok).map_or(given, |told| told.numbers);
            }
            _ => {}
        }
        tally.same("verdicts", &told.numbers, &given, || format!("body {body}"));
    }
    if let Some((spoiled, what)) = garbage(&lent, random) {
        let body = random.below(made.plain.bodies.len() + 1);
        let mut given = spoiled.fit(body, random.bits() as u8);
        if let Some(How::Fit(wrong)) = wrong {
            given = wrong(&spoiled, body, &given).unwrap_or(given);
        }
        tally.same("verdicts of garbage", &vec![9], &given, || what.into());
        let given = spoiled.check(body, random.one_in(2), random.pick(&[3, 256]), 3, 1);
        tally.same("reports of garbage", &(vec![9], 0), &given, || what.into());
    }
    // 01's limit: 1, and before 2.
    let body = random.below(made.plain.bodies.len() + 1);
    let samples = random.pick(&[256, 1 << 20, usize::MAX]);
    let given = lent.check(body, random.one_in(2), samples, 3, 1);
    tally.same("samples above 255", &(vec![1], 0), &given, || {
        format!("{samples} samples")
    });
}

/// One model, compared.
fn compared(
    tally: &mut Tally,
    names: &Names,
    what: &str,
    [seed, number]: [u64; 2],
    wrong: Option<How>,
) {
    let Some(mut made) = made(names, Sort::Several, seed, number, None) else {
        return;
    };
    let mut random = Random::new(seed, number, 500);
    if what == "reports" && random.one_in(3) {
        made = unlisted(made, names, &mut random);
    }
    if what == "reports" && random.one_in(3) {
        let mut plain = made.plain.clone();
        if around::curve(&mut plain, &mut random, Own::Made).is_some()
            && let Ok(model) = original::build(&mut plain, names)
        {
            (made.model, made.plain) = (model, plain);
        }
    }
    tally.begin(format!(
        "model {number} of seed {seed}: {}",
        made.told.join("; ")
    ));
    // Then with own tolerances on either side of the session's: every other model of version 2, every fourth of version 1.
    let again = match number % 4 {
        0 | 2 => Some(Version::Second),
        1 => Some(Version::First),
        _ => None,
    };
    let again = again.filter(|_| what != "boxes").and_then(|version| {
        let mut random = Random::new(seed, number, 401);
        by(version, || either(&made, names, &mut random))
    });
    asked(tally, names, what, made, &mut Random::new(seed, number, 400), wrong);
    if let Some(made) = again {
        let version = made.plain.version;
        tally.met("own tolerances on either side of the session's, by version", version as u32);
        tally.again(&made.told[0]);
        by(version, || asked(tally, names, what, made, &mut Random::new(seed, number, 402), wrong));
    }
}

fn asked(tally: &mut Tally, names: &Names, what: &str, made: Made, random: &mut Random, wrong: Option<How>) {
    match what {
        "splits" => splits(tally, names, made, random, wrong),
        "boxes" => boxes(tally, names, &made, random, wrong),
        _ => reports(tally, names, &made, random, wrong),
    }
}

/// Each wrong station must be seen on one of the models.
fn wrongs(names: &Names, count: u64, seed: u64) -> ExitCode {
    let mut unseen = 0;
    for (what, how) in WRONGS {
        let asked = match how {
            How::Split(_) | How::Sums | How::SplitBy(..) => "splits",
            How::Box(_) | How::Volume(_) => "boxes",
            _ => "reports",
        };
        let mut tally = Tally::quiet();
        let mut number = 0;
        while (tally.models as u64) < count && tally.differing() == 0 {
            number += 1;
            compared(&mut tally, names, asked, [seed, number], Some(how));
        }
        if tally.differing() == 0 {
            println!("a station that {what}: not seen on {count} models");
            unseen += 1;
        } else {
            println!("a station that {what}: seen on model {number}");
        }
    }
    println!("{} wrong stations, {unseen} not seen", WRONGS.len());
    ExitCode::from(u8::from(unseen > 0))
}

fn main() -> ExitCode {
    let words: Vec<String> = env::args().skip(1).collect();
    let number = |k: usize, default: u64| words.get(k).map_or(Some(default), |w| w.parse().ok());
    let (Some(what), Some(count), Some(seed)) = (words.first(), number(1, 20_000), number(2, 1))
    else {
        eprintln!("usage: measures splits | boxes | reports | wrong [models] [seed]");
        return ExitCode::from(2);
    };
    let names = Names::new();
    if what == "wrong" {
        return wrongs(&names, count, seed);
    }
    let mut tally = Tally::default();
    let mut number = 0;
    while (tally.models as u64) < count {
        number += 1;
        compared(&mut tally, &names, what, [seed, number], None);
    }
    tally.end()
}
