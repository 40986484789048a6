//! Stones moved (W-214): the station's sheet is asked before and behind the move, `moves [models] [seed]`; `moves wrong [models] [seed]` for wrong moves and
//! stations, each of which must be seen. The exit status is 1 where an answer is not that of before.

use std::env;
use std::process::ExitCode;

use calls::layout::Lent;
use calls::moves::{faces, gain, given_away, moved, unmet, vertices, without};
use calls::noise::around;
use calls::operations::Record;
use calls::sheets::{Point, Sheet, Take, Taken, limit, total, with_total};
use calls::tally::Tally;
use gensolid_topo::Model;
use models::original::{self, Names};
use models::plain::{Plain, Version};
use models::random::Random;

/// What a wrong move or station does.
#[derive(Clone, Copy, PartialEq)]
enum Wrong {
    Forgets,
    Twice,
    Loses,
    Ends,
    Numbers,
}

const WRONGS: [(&str, Wrong); 5] = [
    ("leaves a vertex where it was", Wrong::Forgets),
    ("moves a vertex twice", Wrong::Twice),
    ("loses a face on the way", Wrong::Loses),
    ("refuses a coordinate of 2,048 mm", Wrong::Ends),
    ("adds the way to the number", Wrong::Numbers),
];

// ---- stones on the grid

/// The points moved onto the grid: to the nearest, or anywhere.
fn gridded(plain: &mut Plain, random: &mut Random) -> &'static str {
    let how = random.pick(&["snapped", "scattered", "scattered near"]);
    for x in plain.vertices.iter_mut().flat_map(|r| &mut r.point) {
        let near = (*x * 16.0).round() / 16.0;
        let most = if how == "scattered" { 32_768 } else { 400 };
        *x = match how {
            "snapped" if near.abs() <= 2_048.0 => near,
            _ => (random.below(2 * most + 1) as f64 - most as f64) / 16.0,
        };
    }
    how
}

/// A sound model on the grid, some of its edges split before.
fn drawn(names: &Names, random: &mut Random) -> Option<(Plain, Model, String)> {
    let (mut plain, shapes) = Plain::several(random);
    let offices: Vec<u32> = plain
        .bodies
        .iter()
        .map(|_| random.below(2) as u32)
        .collect();
    let mut model = original::build(&mut plain, names).ok()?;
    let splits = random.pick(&[0, 0, 1, 2, 5]);
    let mut accepted = 0;
    for _ in 0..splits {
        let edge = random.below(plain.edges.len().max(1));
        let told = original::split(&mut model, names, edge, random.pick(&[0.5, 0.25, 0.7]));
        accepted += usize::from(!told.refused());
    }
    plain = original::read(&model, names).of(&offices);
    let how = gridded(&mut plain, random);
    plain.version = random.pick(&[Version::First, Version::Second]);
    let model = original::build(&mut plain, names).ok()?;
    let told = format!("{shapes}; {accepted} edges split; points {how}; offices {offices:?}");
    Some((plain, model, told))
}

/// A way that keeps these points in range: at times to its ends, at times along one axis alone.
fn way(plain: &Plain, ids: &[usize], random: &mut Random) -> Point {
    let along = random.pick(&[
        [true; 3],
        [true; 3],
        [true, false, false],
        [false, true, true],
    ]);
    std::array::from_fn(|k| {
        let at = ids
            .iter()
            .map(|&id| (plain.vertices[id].point[k] * 16.0) as i128);
        let (low, high) = at.fold((0, 0), |(a, b), x| (a.min(x), b.max(x)));
        let [least, most] = [-32_768 - low, 32_768 - high];
        match random.below(6) {
            _ if !along[k] => 0,
            0 => least,
            1 => most,
            2 => (random.below(65) as i128 - 32).clamp(least, most),
            _ => least + random.below((most - least + 1) as usize) as i128,
        }
    })
}

// ---- moved

/// The vertices moved in the lent floats, or by the station's `set_vertex`.
fn shifted(lent: &Lent, plain: &Plain, moves: &[(usize, Point)], calls: bool) -> Option<Lent> {
    let mut lent = lent.clone();
    for &(id, way) in moves {
        let at = lent.real_at(7, id);
        let point = moved([0, 1, 2].map(|k| lent.reals[at + k]), way);
        if calls {
            let record = Record::Vertex(point, plain.vertices[id].tolerance);
            if lent.set(id, &record) != 0 {
                return None;
            }
        } else {
            lent.reals[at..at + 3].copy_from_slice(&point);
        }
    }
    Some(lent)
}

/// A sheet that has room.
fn sheet(random: &mut Random) -> Sheet {
    let stones = random.pick(&[0, 0, 1, 7, 65_535]);
    let most = (limit(stones) >> 3) as i64;
    let sum = if most == 0 {
        0
    } else {
        random.bits() as i64 % most
    };
    with_total(
        &[stones, 0, 0, random.bits(), random.bits()],
        i128::from(sum),
    )
}

/// One body: moved as it is, with a face taken away, and with that face another body's.
fn body(
    tally: &mut Tally,
    names: &Names,
    (plain, model): (&Plain, &Model),
    id: usize,
    random: &mut Random,
    wrong: Option<Wrong>,
) {
    let lacks = unmet(model, names, plain, id);
    if !lacks.is_empty() {
        tally.met("left out", lacks[0]);
        return;
    }
    let office = plain.bodies[id].office;
    let ids = vertices(model, names, id);
    let way = way(plain, &ids, random);
    let mut moves: Vec<(usize, Point)> = ids.iter().map(|&id| (id, way)).collect();
    match wrong {
        Some(Wrong::Forgets) => {
            moves.swap_remove(random.below(moves.len()));
        }
        Some(Wrong::Twice) => moves[0].1 = way.map(|x| 2 * x),
        _ => {}
    }
    let take = Take {
        office,
        body: id,
        short: false,
        sheet: sheet(random),
    };
    let faces = faces(model, names, id);
    let face = faces[random.below(faces.len())];
    let calls = random.one_in(2);
    let asked = |lent: &Lent| take.ours(&lent.by(office), 1, 0);
    let lent = around(plain, random);
    let behind = shifted(&lent, plain, &moves, calls);
    let Some(behind) = behind else {
        tally.differs("set_vertex", || format!("refused of body {id}"));
        return;
    };
    let before = asked(&lent);
    let mut after = match wrong {
        Some(Wrong::Loses) => {
            let less = around(&without(plain, face), random);
            asked(&shifted(&less, plain, &moves, false).expect("floats are written"))
        }
        _ => asked(&behind),
    };
    if wrong == Some(Wrong::Ends)
        && ids.iter().any(|&id| {
            moved(plain.vertices[id].point, way)
                .iter()
                .any(|x| x.abs() == 2_048.0)
        })
    {
        after = Taken {
            number: 5,
            sheet: take.sheet,
        };
    }
    if wrong == Some(Wrong::Numbers) && after.number == 0 {
        after.sheet = with_total(&after.sheet, total(&after.sheet) + way[0]);
    }
    tally.met(
        "answer",
        if before.number == 0 {
            "taken".into()
        } else {
            format!("refused {}", before.number)
        },
    );
    tally.met(
        "moved by",
        if calls {
            "the station's calls"
        } else {
            "the floats"
        },
    );
    tally.same("stones moved", &before, &after, || {
        format!("{take:?}, by {way:?}")
    });
    if wrong.is_some() {
        return;
    }
    // The numbers of what the request does not take: they change, by what the face would lose.
    for (what, less) in [
        ("a face taken away", without(plain, face)),
        (
            "a face that is another body's",
            given_away(plain, face, office),
        ),
    ] {
        let mut less = less;
        let Ok(model) = original::build(&mut less, names) else {
            continue;
        };
        let lacks = unmet(&model, names, &less, id);
        tally.met(what, lacks.join(", "));
        let lent = around(&less, random);
        let behind = shifted(&lent, &less, &moves, false).expect("floats are written");
        let [before, after] = [asked(&lent), asked(&behind)];
        if [before.number, after.number] != [0, 0] {
            tally.met(
                what,
                format!("refused {} and {}", before.number, after.number),
            );
            continue;
        }
        let numbers = [before, after].map(|taken| total(&taken.sheet) - total(&take.sheet));
        tally.met(
            what,
            if numbers[0] == numbers[1] {
                "the same number"
            } else {
                "another number"
            },
        );
        tally.same(
            "numbers that change",
            &(numbers[0] + gain(&less, face, way)),
            &numbers[1],
            || format!("{what}: face {face} of {take:?}, by {way:?}"),
        );
    }
}

fn compared(tally: &mut Tally, names: &Names, [seed, number]: [u64; 2], wrong: Option<Wrong>) {
    let mut random = Random::new(seed, number, 214);
    let Some((plain, model, told)) = drawn(names, &mut random) else {
        return;
    };
    tally.begin(format!("model {number} of seed {seed}: {told}"));
    for id in 0..plain.bodies.len() {
        body(tally, names, (&plain, &model), id, &mut random, wrong);
    }
}

// ---- all of them

fn over(names: &Names, count: u64, seed: u64) -> ExitCode {
    let mut tally = Tally::default();
    let mut number = 0;
    while (tally.models as u64) < count {
        number += 1;
        compared(&mut tally, names, [seed, number], None);
    }
    tally.end()
}

/// Each must be seen on one of the models.
fn wrongs(names: &Names, count: u64, seed: u64) -> ExitCode {
    let mut unseen = 0;
    for (what, how) in WRONGS {
        let mut tally = Tally::quiet();
        let mut number = 0;
        while (tally.models as u64) < count && tally.differing() == 0 {
            number += 1;
            compared(&mut tally, names, [seed, number], Some(how));
        }
        if tally.differing() == 0 {
            println!("one that {what}: not seen on {count} models");
            unseen += 1;
        } else {
            println!("one that {what}: seen on model {number}");
        }
    }
    println!("{} wrong ones, {unseen} not seen", WRONGS.len());
    ExitCode::from(u8::from(unseen > 0))
}

fn main() -> ExitCode {
    let words: Vec<String> = env::args().skip(1).collect();
    let (mode, numbers) = match words.split_first() {
        Some((first, rest)) if first.parse::<u64>().is_err() => (first.as_str(), rest),
        _ => ("", &words[..]),
    };
    let numbers: Result<Vec<u64>, _> = numbers.iter().map(|a| a.parse()).collect();
    let (count, seed) = match numbers.as_deref() {
        Ok([]) => (None, 1),
        Ok([count]) => (Some(*count), 1),
        Ok([count, seed]) => (Some(*count), *seed),
        _ => return usage(),
    };
    let names = Names::new();
    match mode {
        "" => over(&names, count.unwrap_or(100_000), seed),
        "wrong" => wrongs(&names, count.unwrap_or(1_000), seed),
        _ => usage(),
    }
}

fn usage() -> ExitCode {
    eprintln!("usage: moves [models] [seed] | moves wrong [models] [seed]");
    ExitCode::from(2)
}
