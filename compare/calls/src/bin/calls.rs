//! Random models in the Rust and in lent memory, compared: `calls [models] [seed]`; `calls asked ..` for
//! the questions alone, on models laid out with none of the calls. The exit status is 1 where anything
//! differs.

use std::env;
use std::process::ExitCode;

use calls::layout::{LARGEST, LISTS, Lent, VERSION};
use calls::operations::{Operation, Record, sequence};
use calls::queries::Query;
use calls::spoil::spoil;
use calls::tally::Tally;
use calls::walks::Walk;
use calls::wrong::{BESIDES, Beside, MISLED, Misled, Step, WRONGS, Wrong};
use gensolid_topo::Model;
use models::original::{self, Names};
use models::plain::{Plain, Version};
use models::random::Random;
use models::{Made, Sort, either, made};

/// The station, or a wrong one: with another operation in the place of one, or with something besides.
#[derive(Clone, Copy)]
enum Station<'a> {
    Right,
    Instead(&'a Wrong),
    Beside(&'a Beside),
}

impl Station<'_> {
    fn make(self, lent: &mut Lent, precision: f64, version: u32) -> u32 {
        let number = lent.make(precision, version);
        match self {
            Self::Beside(wrong) => wrong.1(Step::Make(version), number, lent),
            _ => number,
        }
    }

    fn carry_out(self, operation: &Operation, lent: &mut Lent) -> u32 {
        match self {
            Self::Right => operation.ours(lent),
            Self::Instead(wrong) => wrong.1(operation).as_ref().unwrap_or(operation).ours(lent),
            Self::Beside(wrong) => {
                let number = operation.ours(lent);
                wrong.1(Step::Do(operation), number, lent)
            }
        }
    }
}

/// The precision, and the office of all bodies.
fn asked_for(plain: &Plain) -> (f64, u32) {
    (plain.precision, plain.bodies.first().map_or(0, |r| r.office))
}

/// Capacities for a model: at times just what it has, at times a few more, rarely the largest.
fn room(plain: &Plain, random: &mut Random) -> [usize; 10] {
    let used = plain.used();
    let spare = random.pick(&[1, 1, 3, 9]);
    if random.one_in(2000) {
        return LARGEST;
    }
    std::array::from_fn(|k| (used[k] + random.below(spare)).min(LARGEST[k]))
}

/// Making an empty model of the version that is asked about, to be filled by an office, whatever the memory holds, and a precision and versions that are none.
fn empty(
    tally: &mut Tally,
    (precision, office): (f64, u32),
    room: [usize; 10],
    random: &mut Random,
    station: Station,
) -> Lent {
    let mut lent = Lent::new(room, random.bits() as u32, f64::from_bits(random.bits()));
    lent.office = office;
    let before = lent.clone();
    let bad = random.pick(&[0.0, -0.0, -1.0, f64::NAN, f64::INFINITY]);
    let version = original::version() as u32;
    let given = (station.make(&mut lent, bad, version), lent == before);
    tally.same("a precision that is none", &(1, true), &given, || {
        format!("{bad:?}")
    });
    for (precision, none) in [(precision, 0), (precision, 3), (precision, u32::MAX), (bad, 0)] {
        let given = (station.make(&mut lent, precision, none), lent == before);
        tally.same("a version that is none", &(1, true), &given, || {
            format!("{none}, precision {precision:?}")
        });
    }
    let given = station.make(&mut lent, precision, version);
    tally.same("making", &0, &given, || "make".into());
    let mut after = before;
    after.words[..VERSION].fill(0);
    after.words[VERSION] = version;
    after.reals[0] = precision;
    tally.same("memory behind making", &true, &(lent == after), || format!("version {version}"));
    lent
}

/// The model by operations on both sides, each answer compared, and all records.
fn built(
    tally: &mut Tally,
    names: &Names,
    made: &Made,
    lent: &mut Lent,
    random: &mut Random,
    station: Station,
) {
    let offices = made.plain.offices();
    let mut model = Model::new(*made.model.precision());
    for operation in sequence(&made.plain, random) {
        let rust = operation.original(&mut model, names, &made.model);
        let ours = station.carry_out(&operation, lent);
        tally.met(operation.name(), rust);
        tally.same("operations", &rust, &ours, || format!("{operation:?}"));
        if random.one_in(400) {
            records(tally, &original::read(&model, names).of(&offices), lent);
        }
    }
    let rust = original::read(&model, names).of(&offices);
    assert_eq!(
        rust.numbers(),
        made.plain.numbers(),
        "the sequence makes the model"
    );
    records(tally, &rust, lent);
}

/// One record more than the table has slots: the Rust does not limit it.
fn beyond(tally: &mut Tally, plain: &Plain, lent: &mut Lent) {
    for k in 0..10 {
        if lent.words[k] == 0 || (lent.words[k] as usize) < lent.room[k] {
            continue;
        }
        let operation = Operation::Insert(Record::of(plain, k, 0));
        let before = lent.clone();
        let given = (operation.ours(lent), *lent == before);
        tally.same("inserts into a full table", &(8, true), &given, || {
            format!("table {k}")
        });
        tally.listed("the Rust takes a record more than a full table has slots");
    }
}

/// A table filled to its largest, and a list to its limit, on both sides, and one more.
fn filled(tally: &mut Tally, names: &Names, plain: &Plain, finished: &Model) {
    for k in 0..10 {
        tally.begin(format!("table {k} filled"));
        let mut room = [1; 10];
        room[k] = LARGEST[k];
        let mut lent = Lent::new(room, 7, 7.0);
        let mut model = Model::new(*finished.precision());
        tally.same("making", &0, &lent.make(plain.precision, 1), || "make".into());
        let operation = Operation::Insert(Record::of(plain, k, 0));
        for _ in 0..LARGEST[k] {
            // The Rust takes its carriers from a finished model, by number.
            let rust = match k {
                8 | 9 => 0,
                _ => operation.original(&mut model, names, finished),
            };
            let ours = operation.ours(&mut lent);
            tally.same("fills", &rust, &ours, || format!("{operation:?}"));
        }
        if k < 8 {
            records(tally, &original::read(&model, names), &lent);
            let rust = operation.original(&mut model, names, finished);
            tally.same("fills", &0, &rust, || "the Rust takes it".into());
        }
        beyond(tally, plain, &mut lent);
    }
    for (j, &(k, _, limit, _)) in LISTS.iter().enumerate() {
        tally.begin(format!("list {j} filled"));
        let mut lent = Lent::new([2; 10], 7, 7.0);
        let mut model = Model::new(*finished.precision());
        tally.same("making", &0, &lent.make(plain.precision, 1), || "make".into());
        let record = Operation::Insert(Record::of(plain, k, 0));
        let appends = (0..limit).map(|id| Operation::Append(j, 1, id));
        for operation in [record.clone(), record].into_iter().chain(appends) {
            let rust = operation.original(&mut model, names, finished);
            let ours = operation.ours(&mut lent);
            tally.same("fills", &rust, &ours, || format!("{operation:?}"));
        }
        records(tally, &original::read(&model, names), &lent);
        let operation = Operation::Append(j, 1, 0);
        let before = lent.clone();
        let rust = operation.original(&mut model, names, finished);
        let given = (rust, operation.ours(&mut lent), lent == before);
        tally.same("appends to a full list", &(0, 8, true), &given, || {
            format!("list {j}")
        });
        tally.listed("the Rust takes an entry more than a list's limit");
    }
}

/// All records of all tables, read from both sides.
fn records(tally: &mut Tally, rust: &Plain, lent: &Lent) {
    tally.compared("records", rust.used().iter().sum());
    match lent.read() {
        Ok(ours) if ours.numbers() == rust.numbers() => {}
        Ok(ours) => tally.differs("records", || {
            let (rust, ours) = (rust.numbers(), ours.numbers());
            let table = (0..rust.len()).find(|&k| rust[k] != ours[k]);
            let table = table.expect("the lists differ");
            format!(
                "table {table}: expected {:?}, ours {:?}",
                rust[table], ours[table]
            )
        }),
        Err(number) => tally.differs("records", || format!("refused with {number}")),
    }
}

/// The three walks of each body and of one that is missing, at times into a list that is too short or
/// with marks that are.
fn walks(tally: &mut Tally, names: &Names, model: &Model, lent: &Lent, random: &mut Random) {
    const WALKS: [&str; 3] = ["walk of faces", "walk of edges", "walk of vertices"];
    for body in 0..=lent.words[0] as usize {
        let rust = original::walks(model, names, body);
        for (which, rust) in rust.into_iter().enumerate() {
            tally.met(WALKS[which], &rust.words);
            let mut expected = rust.numbers;
            let ids = expected.len() - 1;
            let list = match random.below(8) {
                0 if expected[0] == 0 && ids > 0 => {
                    // The Rust does not limit its lists.
                    expected = vec![8];
                    tally.listed("a walk's list that is too short");
                    random.below(ids)
                }
                1 => ids,
                _ => ids + random.below(40),
            };
            let mut walk = Walk::new(lent, list, random.bits() as u8);
            if random.one_in(16) {
                let marks = &mut walk.marks[random.below(which + 1)];
                if marks.pop().is_some() {
                    expected = vec![8];
                    tally.listed("marks that are too short");
                }
            }
            let given = walk.answer(lent, which, body);
            tally.same(WALKS[which], &expected, &given, || format!("body {body}"));
        }
    }
}

/// Questions about single records: fins and edges near the damages, others, and some that are missing.
fn queries(
    tally: &mut Tally,
    names: &Names,
    made: &Made,
    lent: &Lent,
    random: &mut Random,
    misled: Option<&Misled>,
) {
    let used = made.plain.used();
    let mut questions: Vec<Query> = made.near.iter().map(|&edge| Query::Bounds(edge)).collect();
    questions.push(Query::Version);
    for _ in 0..8 {
        questions.push(Query::Ends(random.below(used[5] + 1)));
        questions.push(Query::Bounds(random.below(used[6] + 1)));
        let class = random.below(8);
        questions.push(Query::Contains(class as u32, random.below(used[class] + 2)));
    }
    for &edge in &made.near {
        let fins = made.plain.edges.get(edge).map_or(&[][..], |edge| &edge.fins);
        questions.extend(fins.iter().filter(|&&fin| fin <= used[5]).map(|&fin| Query::Ends(fin)));
    }
    for query in questions {
        let (expected, words) = match query {
            Query::Ends(fin) => {
                let told = original::ends(&made.model, names, fin);
                (told.numbers, told.words)
            }
            Query::Bounds(edge) => {
                let told = original::bounds(&made.model, names, edge);
                (told.numbers, told.words)
            }
            Query::Contains(class, id) => {
                let yes = original::contains(&made.model, names, class, id);
                (vec![0, yes.into()], format!("{yes}"))
            }
            Query::Version => {
                let version = made.plain.version;
                (vec![0, version as u64], format!("{version:?}"))
            }
        };
        tally.met(query.name(), words);
        let ours = query.ours(lent);
        let given = misled.and_then(|misled| misled.1(lent, query, &ours));
        tally.same(query.name(), &expected, &given.unwrap_or(ours), || {
            format!("{query:?}")
        });
    }
    // A class that is none, which the Rust's types rule out.
    let class = random.pick(&[8, 9, u32::MAX]);
    let given = Query::Contains(class, random.below(3)).ours(lent);
    tally.same("a class that is none", &vec![1], &given, || {
        format!("class {class}")
    });
}

/// Records, lists and places that are not there.
fn missing(tally: &mut Tally, plain: &Plain, lent: &Lent, random: &mut Random) {
    let used = plain.used();
    for id in [random.below(4), random.pick(&[1 << 20, usize::MAX])] {
        let expected = used.map(|n| if id < n { 0 } else { 2 });
        tally.same("lookups of any id", &expected, &lent.refusals(id), || {
            format!("id {id}")
        });
    }
    let expected = Err(1);
    let asked = random.pick(&[8, 9, usize::MAX]);
    let given = lent.entry(asked, random.below(3), random.below(3));
    tally.same("a list that is none", &expected, &given, || {
        format!("list {asked}")
    });
    let far = random.pick(&[1 << 20, usize::MAX]);
    let expected = Err(if used[0] == 0 { 2 } else { 1 });
    let given = lent.entry(0, 0, far);
    tally.same("a place that is none", &expected, &given, || {
        format!("place {far}")
    });
}

/// Memory that cannot be read: 9, and nothing is altered.
fn unreadable(tally: &mut Tally, lent: &Lent, random: &mut Random) {
    let mut spoiled = lent.clone();
    let mut what = "";
    for _ in 0..random.pick(&[1, 1, 3]) {
        if spoiled.readable() {
            what = spoil(&mut spoiled, random);
        }
    }
    let readable = spoiled.readable();
    tally.met(what, if readable { "readable" } else { "not readable" });
    let before = spoiled.clone();
    let nine = |number: u32| number == 9;
    let id = random.below(3);
    let mut numbers = spoiled.refusals(id).to_vec();
    numbers.extend(spoiled.precision().err().or(Some(0)));
    numbers.extend(spoiled.version().err().or(Some(0)));
    numbers.extend(spoiled.entry(random.below(9), id, 0).err().or(Some(0)));
    let class = random.below(9) as u32;
    for query in [Query::Ends(id), Query::Bounds(id), Query::Contains(class, id)] {
        numbers.push(query.ours(&spoiled)[0] as u32);
    }
    // A room above the largest asks for more marks than there can be.
    if spoiled.room.iter().zip(LARGEST).all(|(&n, most)| n <= most) {
        let which = random.below(3);
        let mut walk = Walk::new(&spoiled, 100, 1);
        let answer = walk.answer(&spoiled, which, id);
        numbers.push(answer[0] as u32);
    }
    tally.compared("refusals 9", numbers.len());
    if numbers.iter().any(|&n| nine(n) == readable) {
        tally.differs("refusals 9", || {
            format!("{what}: readable {readable}, ours {numbers:?}")
        });
    }
    // What is edited and split is refused too, and what is made where the capacities or lengths are wrong, before all else.
    if !readable {
        let list = random.below(9);
        let mut numbers = vec![spoiled.append(list, id, 0), spoiled.put_entry(list, id, 0, 0), spoiled.strike(list, id, 0)];
        numbers.extend([spoiled.mark(id), spoiled.split_alone(id, random.pick(&[0.5, 0.0])).0]);
        let k = random.below(10);
        if lent.words[k] > 0
            && let Ok(plain) = lent.read()
        {
            let record = Record::of(&plain, k, 0);
            numbers.extend([spoiled.insert(&record).err().unwrap_or(0), spoiled.set(id, &record)]);
        }
        if !spoiled.spacious() {
            numbers.extend([spoiled.make(0.001, 1), spoiled.make(0.0, 3)]);
        }
        tally.compared("refusals 9 of edits", numbers.len());
        if numbers.iter().any(|&n| !nine(n)) {
            tally.differs("refusals 9 of edits", || format!("{what}: ours {numbers:?}"));
        }
    }
    if spoiled != before {
        tally.differs("refusals 9", || format!("{what}: the memory is altered"));
    }
}

/// One model by operations, and as one of version 2, by a wrong station.
fn operated(tally: &mut Tally, names: &Names, [seed, number]: [u64; 2], station: Station) {
    let Some(made) = made(names, Sort::Several, seed, number, None) else {
        return;
    };
    tally.begin(String::new());
    for version in [Version::First, Version::Second] {
        original::by(version, || {
            let mut random = Random::new(seed, number, 200);
            let made = match version {
                Version::First => Some(made.clone()),
                Version::Second => either(&made, names, &mut random),
            };
            if let Some(made) = made {
                let room = made.plain.used().map(|n| n + 1);
                let mut lent = empty(tally, asked_for(&made.plain), room, &mut random, station);
                built(tally, names, &made, &mut lent, &mut random, station);
            }
        });
    }
}

/// Each wrong station must be seen on one of the models.
fn wrongs(count: u64, seed: u64) -> ExitCode {
    let names = Names::new();
    let mut unseen = 0;
    let mut tried = |what: &str, ask: &dyn Fn(&mut Tally, u64)| {
        let mut tally = Tally::quiet();
        let mut number = 0;
        while (tally.models as u64) < count && tally.differing() == 0 {
            number += 1;
            ask(&mut tally, number);
        }
        if tally.differing() == 0 {
            println!("a station that {what}: not seen on {count} models");
            unseen += 1;
        } else {
            println!("a station that {what}: seen on model {number}");
        }
    };
    for wrong in &WRONGS {
        tried(wrong.0, &|tally, number| operated(tally, &names, [seed, number], Station::Instead(wrong)));
    }
    for wrong in &BESIDES {
        tried(wrong.0, &|tally, number| operated(tally, &names, [seed, number], Station::Beside(wrong)));
    }
    for misled in &MISLED {
        tried(misled.0, &|tally, number| asked(tally, &names, seed, number, Some(misled)));
    }
    let stations = WRONGS.len() + BESIDES.len() + MISLED.len();
    println!("{stations} wrong stations, {unseen} not seen");
    ExitCode::from(u8::from(unseen > 0))
}

/// The questions about one model, laid out with none of the calls; every other one is of version 2.
fn asked(tally: &mut Tally, names: &Names, seed: u64, number: u64, misled: Option<&Misled>) {
    let Some(mut made) = made(names, Sort::Several, seed, number, None) else {
        return;
    };
    if number % 2 == 0 {
        made.plain.version = Version::Second;
    }
    tally.begin(format!(
        "model {number} of seed {seed}: {}",
        made.told.join("; ")
    ));
    let mut random = Random::new(seed, number, 300);
    let room = room(&made.plain, &mut random);
    let noise = (random.bits() as u32, f64::from_bits(random.bits()));
    let lent = Lent::holding(&made.plain, room, noise.0, noise.1);
    queries(tally, names, &made, &lent, &mut random, misled);
}

fn main() -> ExitCode {
    let words: Vec<String> = env::args().skip(1).collect();
    let (mode, numbers) = match words.split_first() {
        Some((first, rest)) if first == "wrong" || first == "asked" => (first.as_str(), rest),
        _ => ("", &words[..]),
    };
    let numbers: Result<Vec<u64>, _> = numbers.iter().map(|a| a.parse()).collect();
    match (mode, numbers.as_deref()) {
        ("wrong", Ok([])) => wrongs(1000, 1),
        ("wrong", Ok([count])) => wrongs(*count, 1),
        ("wrong", Ok([count, seed])) => wrongs(*count, *seed),
        ("asked", Ok([])) => questions(200_000, 1),
        ("asked", Ok([count])) => questions(*count, 1),
        ("asked", Ok([count, seed])) => questions(*count, *seed),
        ("", Ok([])) => compare(20_000, 1),
        ("", Ok([count])) => compare(*count, 1),
        ("", Ok([count, seed])) => compare(*count, *seed),
        _ => {
            eprintln!("usage: calls [wrong | asked] [models] [seed]");
            ExitCode::from(2)
        }
    }
}

fn questions(count: u64, seed: u64) -> ExitCode {
    let names = Names::new();
    let mut tally = Tally::default();
    let mut number = 0;
    while (tally.models as u64) < count {
        number += 1;
        asked(&mut tally, &names, seed, number, None);
    }
    tally.end()
}

/// All that is asked of one model.
fn whole(tally: &mut Tally, names: &Names, made: &Made, random: &mut Random) {
    let plain = &made.plain;
    let room = room(plain, random);
    let mut lent = empty(tally, asked_for(plain), room, random, Station::Right);
    built(tally, names, made, &mut lent, random, Station::Right);
    beyond(tally, plain, &mut lent);
    missing(tally, plain, &lent, random);
    walks(tally, names, &made.model, &lent, random);
    queries(tally, names, made, &lent, random, None);
    unreadable(tally, &lent, random);
    // The same model laid out with none of the calls, and noise around it.
    let noise = (random.bits() as u32, f64::from_bits(random.bits()));
    let laid = Lent::holding(plain, room, noise.0, noise.1);
    records(tally, plain, &laid);
}

fn compare(count: u64, seed: u64) -> ExitCode {
    let names = Names::new();
    let mut tally = Tally::default();
    let mut number = 0;
    let mut fillable = true;
    while (tally.models as u64) < count {
        number += 1;
        let Some(made) = made(&names, Sort::Several, seed, number, None) else {
            continue;
        };
        let plain = &made.plain;
        // Once, with the first model that has a record of each table.
        if fillable && plain.used().iter().all(|&n| n > 0) {
            filled(&mut tally, &names, plain, &made.model);
            fillable = false;
        }
        tally.begin(format!(
            "model {number} of seed {seed}: {}",
            made.told.join("; ")
        ));
        tally.met("damages", made.told.len() - 1);
        whole(&mut tally, &names, &made, &mut Random::new(seed, number, 200));
        // Every fourth once more, of version 2.
        if number % 4 == 0 {
            original::by(Version::Second, || {
                let mut random = Random::new(seed, number, 201);
                if let Some(made) = either(&made, &names, &mut random) {
                    tally.met("models once more", &made.told[0]);
                    tally.again(&made.told[0]);
                    whole(&mut tally, &names, &made, &mut random);
                }
            });
        }
    }
    tally.end()
}
