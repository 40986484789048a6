//! Courses within courses (W-213), compared with what the request's words make of the same courses (`courses.rs`) and of the stones that `sheets` reads from the
//! Rust's tables: `courses [models] [seed]`; `courses wrong [models] [seed]` for wrong stations, each of which must be seen. The exit status is 1 where anything differs.

use std::env;
use std::process::ExitCode;

use calls::course_wrong::{EDITORS, How, WRONGS};
use calls::courses::{Answer, Ask, COURSE, Edit, Edited, Entry, Met, Rule, STRIDE, Yard, read};
use calls::layout::{LARGEST, Lent};
use calls::noise::around;
use calls::offices::Station;
use calls::sheets::Stone;
use calls::solids::{equal, gridded, turned};
use calls::spoil::spoil;
use calls::tally::Tally;
use models::original::{self, Names};
use models::plain::Plain;
use models::random::Random;
use models::{Made, Sort, made};

/// Offices that are none.
const ABOVE: [u32; 5] = [2, 2, 3, 1 << 31, u32::MAX];

// ---- models and tables

/// A cube as large as the grid: 65,536 of it fill more than a word.
fn largest() -> Plain {
    let mut plain = Plain::prisms(1, 4);
    for (k, r) in plain.vertices.iter_mut().enumerate() {
        let [x, y] = [[-1.0, -1.0], [1.0, -1.0], [1.0, 1.0], [-1.0, 1.0]][k % 4];
        r.point = [x, y, [-1.0, 1.0][k / 4]].map(|x: f64| 2_048.0 * x);
    }
    plain
}

/// A model of the number, mostly on the grid, with bodies of both offices.
fn drawn(names: &Names, [seed, number]: [u64; 2], random: &mut Random) -> Option<Made> {
    let sound: &[usize] = &[];
    let sound = (!random.one_in(3)).then_some(sound);
    let mut made = made(names, Sort::Several, seed, number, sound)?;
    let mut plain = made.plain;
    made.told.push(gridded(&mut plain, random));
    if random.one_in(100) {
        plain = largest();
        made.told = vec!["the largest cube".into()];
    }
    if random.one_in(3) {
        made.told.push(turned(&mut plain, random));
    }
    for _ in 0..random.below(4) {
        made.told.push(equal(&mut plain, random));
    }
    let one = random.one_in(2);
    let offices: Vec<u32> = plain
        .bodies
        .iter()
        .map(|_| if one { 0 } else { random.below(2) as u32 })
        .collect();
    plain = plain.of(&offices);
    made.told.push(format!("offices {offices:?}"));
    made.model = original::build(&mut plain, names).ok()?;
    made.plain = plain;
    Some(made)
}

/// A body's id: one of the office's, mostly one that is a stone; at times any, the other's, or none.
fn body(yard: &Yard, office: u32, sound: bool, random: &mut Random) -> usize {
    let n = yard.bodies.len();
    let own = |refused: bool| -> Vec<usize> {
        let is = |&(of, number, _): &(u32, u32, i128)| of == office && (refused || number == 0);
        (0..n).filter(|&b| is(&yard.bodies[b])).collect()
    };
    let [good, own] = [own(false), own(true)];
    if !good.is_empty() && (sound || !random.one_in(12)) {
        return random.pick(&good);
    }
    if !own.is_empty() && !random.one_in(12) {
        return random.pick(&own);
    }
    let any = random.below(n);
    random.pick(&[any, n, 63, 64, 65_535])
}

/// Courses of which each lists bodies and courses: within four levels, without a cycle, or any.
fn table(yard: &Yard, office: u32, random: &mut Random) -> (Vec<Vec<Entry>>, &'static str) {
    let how = random.pick(&[
        "levels", "levels", "levels", "levels", "levels", "one way", "any",
    ]);
    let n = random.pick(&[0, 1, 2, 4, 4, 8, 8, 12, 30]);
    let n = if random.one_in(40) { 256 } else { n };
    if random.one_in(60) {
        // A chain of so many courses, of which the last lists one that is not there.
        let long: usize = random.pick(&[3, 4, 4, 4, 5]);
        let link = |c: usize| {
            vec![
                Entry::Body(body(yard, office, true, random)),
                Entry::Course(if c + 1 == long { 65_535 } else { c + 1 }),
            ]
        };
        return ((0..long).map(link).collect(), "chain");
    }
    let large = yard
        .bodies
        .iter()
        .any(|&(.., number)| number.abs() > 1 << 50);
    if random.one_in(if large { 2 } else { 400 }) {
        let mut courses = vec![vec![Entry::Body(body(yard, office, true, random)); 16]];
        courses.extend((0..3).map(|c| vec![Entry::Course(c); 16]));
        return (courses, "full");
    }
    let sound = random.one_in(2);
    let courses = (0..n).map(|c| {
        let k = random.pick(&[0, 1, 1, 2, 2, 3, 3, 4, 5]);
        let k = if random.one_in(60) { 16 } else { k };
        let entry = |random: &mut Random| {
            let lower = match how {
                // Courses c, c + 1, .. are of level c % 4: they list those of a lower level.
                "levels" => {
                    (c % 4 > 0 && c > 0).then(|| (c / 4 * 4 + random.below(c % 4)).min(c - 1))
                }
                "one way" => (c > 0).then(|| random.below(c)),
                _ => Some(random.below(n + usize::from(!sound))),
            };
            match lower {
                Some(lower) if !random.one_in(3) => {
                    let none = !sound && random.one_in(12);
                    Entry::Course(if none {
                        random.pick(&[n, 255, 256, 65_535])
                    } else {
                        lower
                    })
                }
                _ => Entry::Body(body(yard, office, sound, random)),
            }
        };
        (0..k).map(|_| entry(random)).collect()
    });
    (courses.collect(), how)
}

/// A table's words, with garbage wherever nothing is said of them.
fn laid(courses: &[Vec<Entry>], random: &mut Random) -> Vec<u32> {
    let room = (courses.len() + random.pick(&[0, 0, 0, 1, 3])).min(256);
    let long = 1 + STRIDE * room + random.pick(&[0, 0, 1, 16, 40]);
    let mut words: Vec<u32> = (0..long).map(|_| random.bits() as u32).collect();
    words[0] = courses.len() as u32;
    for (c, entries) in courses.iter().enumerate() {
        let at = 1 + STRIDE * c;
        words[at] = entries.len() as u32;
        for (k, entry) in entries.iter().enumerate() {
            words[at + 1 + k] = match *entry {
                Entry::Body(id) => id as u32,
                Entry::Course(id) => COURSE + id as u32,
            };
        }
    }
    words
}

/// Words that may not be a table: a count, an entry or the length is another, or all of them are garbage.
fn spoiled(words: &[u32], random: &mut Random) -> Vec<u32> {
    let mut words = words.to_vec();
    let used = words[0] as usize;
    let course = 1 + STRIDE * random.below(used.max(1));
    match random.below(7) {
        0 => words[0] = random.pick(&[used as u32 + 1, 257, 256, 1 << 31, u32::MAX]),
        1 => words.truncate(random.below(words.len() + 1)),
        2 if course < words.len() => words[course] = random.pick(&[16, 17, 18, 256, u32::MAX]),
        3 if course < words.len() => {
            let at = (course + 1 + random.below(16)).min(words.len() - 1);
            words[at] = random.pick(&[131_071, 131_072, 131_073, 1 << 31, u32::MAX]);
        }
        4 => words.clear(),
        5 => {
            words.iter_mut().for_each(|w| *w = random.bits() as u32);
            words[0] = random.pick(&[0, 1, 2]);
        }
        _ => words.iter_mut().for_each(|w| *w = random.below(20) as u32),
    }
    words
}

// ---- asked

fn met_in(tally: &mut Tally, yard: &Yard, ask: &Ask, expected: &Answer) {
    let met = yard.met(ask, &Rule::REQUEST);
    let deepest = met
        .iter()
        .map(|met| {
            if let Met::Course(level, ..) = met {
                *level
            } else {
                0
            }
        })
        .max();
    tally.met("levels told", deepest.unwrap_or(0));
    let [stones, _, high] = expected.slots;
    let size = match stones {
        0 => "none",
        1 => "one",
        2..16 => "up to 15",
        16..256 => "up to 255",
        256..65_536 => "up to 65,535",
        _ => "65,536",
    };
    tally.met("stones told", size);
    if high as i64 != 0 && high as i64 != -1 {
        tally.met("total", "in the high word");
    }
    if (high as i64) < 0 {
        tally.met("total", "below 0");
    }
    let mut ids: Vec<usize> = met
        .iter()
        .filter_map(|met| {
            if let Met::Course(_, id, _) = met {
                Some(*id)
            } else {
                None
            }
        })
        .collect();
    let all = ids.len();
    ids.sort_unstable();
    ids.dedup();
    if ids.len() < all {
        tally.met("courses", "used more than once");
    }
}

fn answered(
    lent: &Lent,
    words: &[u32],
    yard: &Yard,
    ask: &Ask,
    random: &mut Random,
    wrong: Option<How>,
) -> Answer {
    let mut given = ask.ours(
        lent,
        words,
        random.bits() as u8,
        random.pick(&[0, 0, 0, 1, 40]),
    );
    match wrong {
        Some(How::Rule(change)) => {
            let mut rule = Rule::REQUEST;
            change(&mut rule);
            let [right, other] = [Rule::REQUEST, rule].map(|rule| yard.answer(ask, &rule).0);
            if right != other {
                given = other;
            }
        }
        Some(How::Told(alter)) => alter(ask, &mut given),
        _ => {}
    }
    given
}

fn asked(random: &mut Random, lent: &Lent, office: u32, n: usize) -> Ask {
    let above = random.pick(&ABOVE);
    let beyond = random.pick(&[n, n + 1, 256, 65_536, 1 << 32, usize::MAX]);
    Ask {
        office: random.pick(&[
            office,
            office,
            office,
            office,
            office,
            office,
            1 - office,
            above,
        ]),
        // Those of the highest level have the most levels below them.
        course: match n {
            0 => beyond,
            _ if random.one_in(12) => beyond,
            _ if random.one_in(2) => (random.below(n) | 3).min(n - 1),
            _ => random.below(n),
        },
        short: lent.room[3] > 0 && random.one_in(12),
        slots: [random.bits(), random.bits(), random.bits()],
    }
}

/// Courses asked for by both offices, and at times by one that is none.
fn totals(
    tally: &mut Tally,
    yard: &Yard,
    words: &mut Vec<u32>,
    lent: &mut Lent,
    office: u32,
    random: &mut Random,
    wrong: Option<How>,
) {
    let before = (lent.clone(), words.clone());
    let n = yard.courses.len();
    for _ in 0..6 {
        let ask = asked(random, lent, office, n);
        let (expected, told) = yard.answer(&ask, &Rule::REQUEST);
        tally.met("answer", &told);
        if expected.number == 0 {
            met_in(tally, yard, &ask, &expected);
        }
        let given = answered(lent, words, yard, &ask, random, wrong);
        tally.same("courses", &expected, &given, || {
            format!("{ask:?}, {:?}", yard.courses)
        });
        if expected.number == 0 {
            match wrong {
                Some(How::Tables) => lent.reals[0] = lent.reals[0].next_up(),
                Some(How::Courses) => words[0] += 1,
                _ => {}
            }
        }
    }
    let same = *lent == before.0 && *words == before.1;
    tally.same("memory behind the courses", &true, &same, || {
        "all of it".into()
    });
}

/// A course table that cannot be read, or tables: 9, whatever office asks.
fn unreadable(
    tally: &mut Tally,
    words: &[u32],
    lent: &Lent,
    random: &mut Random,
    wrong: Option<How>,
) {
    let mut ask = asked(random, lent, 0, 3);
    let other = spoiled(words, random);
    if read(&other).is_none() {
        let mut given = ask.ours(lent, &other, random.bits() as u8, 0);
        match wrong {
            Some(How::Unread(number)) => given.number = number,
            Some(How::First) if ask.office > 1 => given.number = 1,
            _ => {}
        }
        let expected = Answer {
            number: 9,
            slots: ask.slots,
            cleared: true,
        };
        tally.same("garbage for courses", &expected, &given, || {
            format!("{ask:?}")
        });
    }
    let mut spoiled = lent.clone();
    let what = spoil(&mut spoiled, random);
    let lendable = spoiled.room.iter().zip(LARGEST).all(|(&n, most)| n <= most);
    if lendable && !spoiled.readable() {
        ask.short = random.one_in(6);
        let mut given = ask.ours(&spoiled, words, random.bits() as u8, 0);
        if ask.office > 1 && matches!(wrong, Some(How::First)) {
            given.number = 1;
        }
        let expected = Answer {
            number: 9,
            slots: ask.slots,
            cleared: true,
        };
        tally.same("garbage for tables", &expected, &given, || {
            format!("{what}: {ask:?}")
        });
    }
}

fn any_edit(words: &[u32], random: &mut Random) -> Edit {
    let n = words.first().map_or(0, |&n| (n as usize).min(256));
    let course = if n == 0 || random.one_in(12) {
        random.pick(&[n, n + 1, 256, usize::MAX])
    } else {
        random.below(n)
    };
    let count = words
        .get(1 + STRIDE * course.min(256))
        .map_or(0, |&n| (n as usize).min(17));
    let place = if random.one_in(8) {
        random.pick(&[count, count + 1, 16, usize::MAX])
    } else {
        random.below(count.max(1))
    };
    let tag = random.pick(&[0, 0, 0, 1, 1, 1, 2, u32::MAX]);
    let few = random.below(8) as u32;
    let id = random.pick(&[0, 1, 2, 255, 65_535, 65_536, 1 << 31, few, few]);
    match random.below(16) {
        0 => Edit::Make,
        1..4 => Edit::Insert,
        4..9 => Edit::Append { course, tag, id },
        9 | 10 => Edit::Put {
            course,
            place,
            tag,
            id,
        },
        11 | 12 => Edit::Strike { course, place },
        13 => Edit::Count,
        14 => Edit::Length { course },
        _ => Edit::Entry { course, place },
    }
}

/// A table edited again and again, from one that was made, a random one, or garbage.
fn edits(tally: &mut Tally, words: &[u32], random: &mut Random, wrong: Option<How>) {
    let mut words = match random.below(4) {
        0 => spoiled(words, random),
        1 => {
            let long = random.pick(&[0, 1, 17, 18, 19, 35, 52, 69, 4_353, 4_400]);
            (0..long).map(|_| random.bits() as u32).collect()
        }
        _ => words.to_vec(),
    };
    let full = random.one_in(4);
    for k in 0..24 {
        let edit = match any_edit(&words, random) {
            _ if k == 0 && random.one_in(2) => Edit::Make,
            Edit::Append { tag, id, .. } if full => Edit::Append {
                course: 0,
                tag: tag % 2,
                id: id % 9,
            },
            Edit::Make if k > 0 && !random.one_in(8) => Edit::Insert,
            edit => edit,
        };
        let expected = edit.expected(&words);
        let mut given: Edited = edit.ours(&words);
        if let Some(How::Edits(alter)) = wrong {
            alter(edit, &words, &mut given);
        }
        tally.met("edit", format!("{} of {}", expected.number, name(edit)));
        tally.same("edits", &expected, &given, || {
            format!("{edit:?} of {words:?}")
        });
        words = expected.words;
    }
}

fn name(edit: Edit) -> &'static str {
    match edit {
        Edit::Make => "make",
        Edit::Insert => "insert",
        Edit::Append { .. } => "append",
        Edit::Put { .. } => "put",
        Edit::Strike { .. } => "strike",
        Edit::Count => "count",
        Edit::Length { .. } => "length",
        Edit::Entry { .. } => "entry",
    }
}

/// One model, compared.
fn compared(tally: &mut Tally, names: &Names, [seed, number]: [u64; 2], wrong: Option<How>) {
    let mut random = Random::new(seed, number, 713);
    let random = &mut random;
    let Some(made) = drawn(names, [seed, number], random) else {
        return;
    };
    let station = Station {
        model: &made.model,
        names,
        plain: &made.plain,
    };
    let bodies = 0..made.plain.bodies.len();
    let stones: Vec<Stone> = bodies
        .map(|body| Stone::of(station, made.plain.bodies[body].office, body))
        .collect();
    let office = random.below(2) as u32;
    let mut yard = Yard::of(station, &stones);
    let (courses, how) = table(&yard, office, random);
    tally.begin(format!(
        "model {number} of seed {seed}: {}; courses {how}",
        made.told.join("; ")
    ));
    tally.met("tables", how);
    let mut words = laid(&courses, random);
    assert_eq!(
        read(&words).as_ref(),
        Some(&courses),
        "what was laid is read"
    );
    let mut lent = around(&made.plain, random);
    yard.courses = courses;
    totals(tally, &yard, &mut words, &mut lent, office, random, wrong);
    unreadable(tally, &words, &lent, random, wrong);
    edits(tally, &words, random, wrong);
}

/// The trial stone, 589,824, in a full table: 65,536 of it.
fn trial(tally: &mut Tally, names: &Names) {
    let mut plain = Plain::prisms(1, 4);
    for (k, r) in plain.vertices.iter_mut().enumerate() {
        let [x, y] = [[0.0, 0.0], [4.0, 0.0], [4.0, 3.0], [0.0, 3.0]][k % 4];
        r.point = [x, y, [0.0, 2.0][k / 4]];
    }
    original::build(&mut plain, names).expect("the Rust makes it");
    let lent = Lent::holding(&plain, plain.used(), 0, 0.0);
    let mut words = vec![0; 1 + 5 * STRIDE];
    for c in 0..5 {
        let entry = |tag, id| Edit::Append { course: c, tag, id };
        words = Edit::Insert.ours(&words).words;
        for _ in 0..16 {
            let edit = if c == 0 {
                entry(0, 0)
            } else {
                entry(1, c as u32 - 1)
            };
            words = edit.ours(&words).words;
        }
    }
    for (course, number, stones) in [
        (0, 0, 16),
        (1, 0, 256),
        (2, 0, 4_096),
        (3, 0, 65_536),
        (4, 1, 0),
    ] {
        let ask = Ask {
            office: 0,
            course,
            short: false,
            slots: [0; 3],
        };
        let expected = Answer {
            number,
            slots: [stones, stones * 589_824, 0],
            cleared: true,
        };
        tally.same(
            "the trial stone",
            &expected,
            &ask.ours(&lent, &words, 1, 0),
            || format!("{ask:?}"),
        );
    }
}

// ---- all of them

fn over(names: &Names, count: u64, seed: u64) -> ExitCode {
    let mut tally = Tally::default();
    trial(&mut tally, names);
    let mut number = 0;
    while (tally.models as u64) < count {
        number += 1;
        compared(&mut tally, names, [seed, number], None);
    }
    tally.end()
}

/// Each wrong station must be seen on one of the models.
fn wrongs(names: &Names, count: u64, seed: u64) -> ExitCode {
    let mut unseen = 0;
    let editors = EDITORS.map(|(what, alter)| (what, How::Edits(alter)));
    for (what, how) in WRONGS.into_iter().chain(editors) {
        let mut tally = Tally::quiet();
        let mut number = 0;
        while (tally.models as u64) < count && tally.differing() == 0 {
            number += 1;
            compared(&mut tally, names, [seed, number], Some(how));
        }
        if tally.differing() == 0 {
            println!("a station that {what}: not seen on {count} models");
            unseen += 1;
        } else {
            println!("a station that {what}: seen on model {number}");
        }
    }
    println!(
        "{} wrong stations, {unseen} not seen",
        WRONGS.len() + EDITORS.len()
    );
    ExitCode::from(u8::from(unseen > 0))
}

fn main() -> ExitCode {
    let words: Vec<String> = env::args().skip(1).collect();
    let (mode, numbers) = match words.split_first() {
        Some((first, rest)) if first.parse::<u64>().is_err() => (first.as_str(), rest),
        _ => ("", &words[..]),
    };
    let numbers: Result<Vec<u64>, _> = numbers.iter().map(|a| a.parse()).collect();
    let (count, seed) = match numbers.as_deref() {
        Ok([]) => (None, 1),
        Ok([count]) => (Some(*count), 1),
        Ok([count, seed]) => (Some(*count), *seed),
        _ => return usage(),
    };
    let names = Names::new();
    match mode {
        "" => over(&names, count.unwrap_or(100_000), seed),
        "wrong" => wrongs(&names, count.unwrap_or(20_000), seed),
        _ => usage(),
    }
}

fn usage() -> ExitCode {
    eprintln!("usage: courses [models] [seed] | courses wrong [models] [seed]");
    ExitCode::from(2)
}
