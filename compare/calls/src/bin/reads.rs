//! Binary STL read into a body (W-210), compared with what the request's words make of the same bytes (`stl_read.rs`): `reads [memories] [seed]`;
//! `reads wrong [memories] [seed]` for wrong stations, each of which must be seen; `reads files DIR` reads the files of a folder, for `compare/readers`. The exit status
//! is 1 where anything differs.

use std::collections::BTreeMap;
use std::process::ExitCode;
use std::{array, env, fs, path};

use calls::images::{apart, same};
use calls::layout::{LARGEST, Lent};
use calls::mends::held;
use calls::noise::{wild_of, within};
use calls::operations::Record;
use calls::spoil::spoil;
use calls::stl_files::any;
use calls::stl_read::{Answer, Ask, Rule, Solid, answer, solid, used};
use calls::stl_read_wrong::{Asked, How, wrongs as all_wrongs};
use calls::tally::Tally;
use models::original::{self, Names};
use models::plain::{Carrier, Kind, Plain, Triple, Version};
use models::random::Random;
use models::{Sort, made};

/// Offices that are none.
const ABOVE: [u32; 5] = [2, 2, 3, 1 << 31, u32::MAX];

/// How many of each table.
type Counts = [usize; 10];

// ---- memory

/// Used slots and capacities for so many new records: enough, just enough, one too few of a table, fewer of several, 01's largest, a table that its new records fill.
fn planned(
    found: Counts,
    new: Counts,
    full: bool,
    random: &mut Random,
) -> (Counts, Counts, String) {
    let mut used = found;
    let spare = random.pick(&[1, 1, 2, 4]);
    let mut room: Counts = array::from_fn(|k| used[k] + new[k] + random.below(spare));
    room[8] += random.below(2);
    room[9] += random.below(2);
    let k = random.below(8);
    let told = match random.below(12) {
        0..3 if new[k] > 0 => {
            room[k] = used[k] + new[k] - 1;
            format!("one short in table {k}")
        }
        3 => {
            for k in 0..8 {
                room[k] = used[k] + new[k].saturating_sub(random.pick(&[0, 0, 0, 1, 2]));
            }
            "short in several tables".into()
        }
        4 if full && random.one_in(4) => {
            room[k] = LARGEST[k];
            used[k] = (LARGEST[k].saturating_sub(new[k]) + random.below(2)).min(LARGEST[k]);
            format!("table {k} to its largest")
        }
        5 if random.one_in(40) => {
            room = LARGEST;
            "the largest".into()
        }
        _ => "room".into(),
    };
    let room = array::from_fn(|k| room[k].min(LARGEST[k]).max(used[k]));
    (used, room, told)
}

/// Vertices of the tables and of unused slots that lie where the file's do, and edges of unused slots between such.
fn planted(lent: &mut Lent, points: &[Triple], random: &mut Random) {
    let used = used(lent);
    let some = |random: &mut Random| points[random.below(points.len())];
    for id in 0..lent.room[7] {
        if id >= used[7] || random.one_in(2) {
            let at = lent.real_at(7, id);
            lent.reals[at..at + 3].copy_from_slice(&some(random));
        }
    }
    for id in used[6]..lent.room[6] {
        let at = lent.word_at(6, id);
        let [start, end] = [0; 2].map(|_| (used[7] + random.below(points.len())) as u32);
        lent.words[at..at + 8].copy_from_slice(&[1, start, 1, end, 0, 0, 0, 1]);
    }
}

/// Words and floats behind the tables' ends, at times.
fn longer(lent: &mut Lent, random: &mut Random) {
    if random.one_in(6) {
        let more = random.pick(&[1, 7, 200]);
        lent.words.extend((0..more).map(|_| random.bits() as u32));
        let more = random.pick(&[1, 5]);
        let floats = (0..more).map(|_| f64::from_bits(random.bits()));
        lent.reals.extend(floats);
    }
}

/// Memory, and what it is. The Rust can be asked about models and where there was no record.
struct Memory {
    lent: Lent,
    rust: bool,
    told: String,
    room: String,
}

/// Memory for so many new records: around a model that is sound or damaged, of garbage that can be read, or with no record. A model's is not readable where a damage
/// makes a tolerance that is none.
fn memory(
    names: &Names,
    [seed, number]: [u64; 2],
    new: Counts,
    random: &mut Random,
) -> Option<Memory> {
    let sort = random.below(5);
    if sort > 1 {
        let most = random.pick(&[1, 2, 3, 4]);
        let some = [0; 10].map(|_| random.below(most));
        let (used, rust, told) = match sort {
            2 => ([0; 10], true, "empty"),
            _ => (some, false, "wild"),
        };
        let (used, room, how) = planned(used, new, !rust, random);
        return Some(Memory {
            lent: wild_of(used, room, random),
            rust,
            told: told.into(),
            room: how,
        });
    }
    let sound: &[usize] = &[];
    let sound = random.one_in(2).then_some(sound);
    let made = made(names, Sort::Several, seed, number, sound)?;
    let offices: Vec<u32> = (0..5).map(|_| random.below(2) as u32).collect();
    let mut plain = made.plain.of(&offices);
    plain.version = random.pick(&[Version::First, Version::Second]);
    let tight = Lent::holding(&plain, plain.used(), 0, 0.0);
    let (_, room, how) = planned(plain.used(), new, false, random);
    let readable = tight.readable();
    Some(Memory {
        lent: if readable {
            within(&tight, room, random)
        } else {
            tight
        },
        rust: readable,
        told: made.told.join("; "),
        room: how,
    })
}

// ---- read

fn answered(lent: &Lent, ask: &Ask, wrong: Option<How>) -> Answer {
    let mut given = ask.ours(lent);
    match wrong {
        Some(How::Rule(change)) => {
            let mut rule = Rule::REQUEST;
            change(&mut rule);
            let right = answer(lent, ask, &Rule::REQUEST).0;
            let other = answer(lent, ask, &rule).0;
            if right.difference(&other).is_some() {
                given = other;
            }
        }
        Some(How::Told(alter)) => {
            let found = &solid(lent, ask, &Rule::REQUEST);
            alter(&Asked { ask, lent, found }, &mut given);
        }
        _ => {}
    }
    given
}

/// What was read, in the output.
fn counted(tally: &mut Tally, solid: &Solid) {
    let fins = |n: usize| solid.sides.iter().any(|side| side.fins.len() == n);
    let coordinates = || solid.points.iter().flatten();
    let faults = solid.faults();
    let of = |reason: u64| faults.iter().any(|fault| fault[0] == reason);
    for (is, what) in [
        (solid.fins.is_empty(), "of no triangle"),
        (!solid.fins.is_empty() && !of(19) && !of(20), "closed"),
        (of(20), "with equal senses"),
        (fins(1), "an edge used once"),
        (fins(3), "an edge used thrice"),
        (fins(8), "an edge of eight fins"),
        (solid.faces() == 512, "512 faces"),
        (
            coordinates().any(|x| x.to_bits() == 1 << 63),
            "a negative zero",
        ),
        (
            coordinates().any(|&x| x != 0.0 && (x as f32).is_subnormal()),
            "a subnormal",
        ),
        (
            coordinates().any(|x| x.abs() == f64::from(f32::MAX)),
            "the largest",
        ),
    ] {
        if is {
            tally.met("read", what);
        }
    }
    tally.compared("triangles read", solid.faces());
    tally.compared("edges made", solid.sides.len());
    tally.compared("vertices made", solid.points.len());
}

// ---- behind a reading

/// The same records by the station's inserts and entries of lists.
fn inserted(solid: &Solid, lent: &Lent, office: u32) -> Result<Lent, u32> {
    let mut lent = lent.by(office);
    let lent_to = &mut lent;
    let insert = |lent: &mut Lent, record: Record| lent.insert(&record).map(|id| id as usize);
    let append = |lent: &mut Lent, j, i, id: usize| match lent.append(j, i, id as u32) {
        0 => Ok(()),
        number => Err(number),
    };
    let body = insert(lent_to, Record::Body(Kind::Solid))?;
    let mut shells = [0; 2];
    for (shell, is_solid) in shells.iter_mut().zip([false, true]) {
        let region = insert(lent_to, Record::Region(body, is_solid))?;
        append(lent_to, 0, body, region)?;
        *shell = insert(lent_to, Record::Shell(region))?;
        append(lent_to, 1, region, *shell)?;
    }
    for &point in &solid.points {
        insert(lent_to, Record::Vertex(point, None))?;
    }
    for side in &solid.sides {
        let [start, end] = side.ends.map(Some);
        insert(lent_to, Record::Edge([start, end, None], None))?;
    }
    for fins in solid.fins.chunks(3) {
        let [front, back] = shells.map(Some);
        let face = insert(lent_to, Record::Face([front, back, None], true))?;
        for shell in shells {
            append(lent_to, 2, shell, face)?;
        }
        let round = insert(lent_to, Record::Loop(face))?;
        append(lent_to, 5, face, round)?;
        for r in fins {
            let fin = insert(lent_to, Record::Fin([round, r.edge], r.positive, false))?;
            append(lent_to, 6, round, fin)?;
            append(lent_to, 7, r.edge, fin)?;
        }
    }
    Ok(lent)
}

/// The file that is written of the body: the triangles as they were met, with the points that are stored.
fn file(solid: &Solid) -> Vec<u8> {
    let mut bytes = vec![0; 80];
    bytes.extend((solid.faces() as u32).to_le_bytes());
    for fins in solid.fins.chunks(3) {
        bytes.extend([0; 12]);
        for fin in fins {
            let ends = solid.sides[fin.edge - solid.used[6]].ends;
            let start = ends[usize::from(!fin.positive)];
            let point = solid.points[start - solid.used[7]];
            bytes.extend(point.iter().flat_map(|&x| (x as f32).to_le_bytes()));
        }
        bytes.extend([0; 2]);
    }
    bytes
}

/// Gives each face a plane and each edge a line, by the station's edits, and has the body written (W-209); none where there is no slot for a plane or a line.
fn written(solid: &Solid, lent: &Lent) -> Option<(u32, Vec<u8>)> {
    let mut lent = lent.clone();
    let way = [0.0, 0.0, 1.0];
    let [body, _, shell, ..] = solid.used;
    let plane = Record::Surface(Carrier::Plane([0.0; 3], way));
    let line = Record::Curve(Carrier::Line([0.0; 3], way));
    let plane = lent.insert(&plane).ok()? as usize;
    let line = lent.insert(&line).ok()? as usize;
    for k in 0..solid.faces() {
        let ids = [Some(shell), Some(shell + 1), Some(plane)];
        let number = lent.set(solid.used[3] + k, &Record::Face(ids, true));
        assert_eq!(number, 0, "a face is there");
    }
    for (k, side) in solid.sides.iter().enumerate() {
        let [start, end] = side.ends.map(Some);
        let record = Record::Edge([start, end, Some(line)], None);
        assert_eq!(lent.set(solid.used[6] + k, &record), 0, "an edge is there");
    }
    let [mut faces, ..] = lent.marks(0);
    let mut length = [0];
    let mut bytes = vec![0xa5; 84 + 50 * solid.faces()];
    let number = lent.write_stl(body, &mut faces, &mut bytes, &mut length);
    bytes.truncate(length[0]);
    Some((number, bytes))
}

/// A file that was read: the memory before it and behind it, and its records.
struct Behind<'a> {
    before: &'a Lent,
    lent: &'a Lent,
    solid: &'a Solid,
}

impl Behind<'_> {
    /// What the checker says, ours and, where it is to be asked, the Rust's.
    fn reported(&self, tally: &mut Tally, names: Option<&Names>, random: &mut Random) {
        let body = self.solid.used[0];
        let faults = self.solid.faults();
        let numbers = [0, 0].into_iter().chain(faults.iter().flatten().copied());
        let numbers: Vec<u64> = numbers.collect();
        let places = faults.len() + random.below(2);
        let told = self.lent.check(body, false, 3, places, 1);
        let expected = (numbers.clone(), faults.len());
        tally.same("reports, by the station", &expected, &told, || {
            format!("body {body}")
        });
        let Some(names) = names else {
            return;
        };
        let mut plain: Plain = held(self.lent);
        if let Ok(model) = original::build(&mut plain, names)
            && let Ok(told) = original::report(&model, names, body, false, 3)
        {
            tally.same("reports, by the Rust", &numbers, &told.numbers, || {
                format!("body {body}")
            });
        }
    }

    /// That inserts leave the same memory.
    fn by_inserts(&self, tally: &mut Tally) {
        let told = match inserted(self.solid, self.before, self.lent.office) {
            Ok(made) if same(&made, self.lent) => "the same".into(),
            Ok(made) => apart(&made, self.lent),
            Err(number) => format!("refused with {number}"),
        };
        let expected = String::from("the same");
        tally.same("records, by inserts", &expected, &told, || {
            "its body".into()
        });
    }

    /// That the file comes back.
    fn written_again(&self, tally: &mut Tally) {
        let Some(told) = written(self.solid, self.lent) else {
            tally.met("written again", "no slot for a plane or a line");
            return;
        };
        let expected = match self.solid.faces() {
            0 => (4, Vec::new()),
            _ => (0, file(self.solid)),
        };
        tally.met("written again", expected.0);
        tally.same("files, written again", &expected, &told, || {
            "its body".into()
        });
    }

    /// All of it, the longer parts of small bodies now and then.
    fn compared(&self, tally: &mut Tally, names: Option<&Names>, random: &mut Random) {
        let faces = self.solid.faces();
        let names = names.filter(|_| faces <= 60 && random.one_in(4));
        self.reported(tally, names, random);
        if faces <= 16 && random.one_in(4) {
            self.by_inserts(tally);
        }
        if faces <= 40 && random.one_in(4) {
            self.written_again(tally);
        }
    }
}

// ---- one memory

/// Memory that cannot be read: 9, whatever office asks.
fn unreadable(
    tally: &mut Tally,
    lent: &Lent,
    bytes: &[u8],
    random: &mut Random,
    wrong: Option<How>,
) {
    let mut spoiled = lent.clone();
    let what = spoil(&mut spoiled, random);
    let lendable = spoiled.room.iter().zip(LARGEST).all(|(&n, most)| n <= most);
    if !lendable || spoiled.readable() {
        return;
    }
    let ask = Ask {
        office: random.pick(&[0, 1, 2, u32::MAX]),
        slot: random.bits() as u32,
        bytes: bytes.to_vec(),
    };
    let mut given = ask.ours(&spoiled);
    match wrong {
        Some(How::First) if ask.office > 1 => given.number = 1,
        Some(How::Tables) => given.number = 0,
        _ => {}
    }
    let difference = ask.untouched(&spoiled, 9).difference(&given);
    tally.same("garbage", &None, &difference, || format!("{what}: {ask:?}"));
}

/// The records of each file, in memory of any size; none where it is refused for itself.
fn solids(files: &[(Vec<u8>, String)]) -> Vec<Option<Solid>> {
    let plain = Plain {
        precision: 1.0,
        ..Plain::default()
    };
    let empty = Lent::holding(&plain, [0; 10], 0, 0.0);
    let any_room = Rule {
        room: |_, _| true,
        most: usize::MAX,
        ..Rule::REQUEST
    };
    let records = |(bytes, _): &(Vec<u8>, String)| {
        let ask = Ask {
            office: 0,
            slot: 0,
            bytes: bytes.clone(),
        };
        solid(&empty, &ask, &any_room).ok()
    };
    files.iter().map(records).collect()
}

/// Some files, the same again among them, and memory for the first of them or all.
fn made_for(
    names: &Names,
    number: [u64; 2],
    random: &mut Random,
) -> Option<(Vec<(Vec<u8>, String)>, Memory)> {
    let mut files = vec![any(random)];
    while random.one_in(2) && files.len() < 4 {
        let again = files[random.below(files.len())].clone();
        files.push(if random.one_in(4) { again } else { any(random) });
    }
    let solids = solids(&files);
    let most = random.pick(&[files.len(), files.len(), 1]);
    let new = solids[..most].iter().flatten().fold([0; 10], |sum, solid| {
        array::from_fn(|k| sum[k] + solid.new_records()[k])
    });
    let mut memory = memory(names, number, new, random)?;
    let points = solids.iter().flatten().flat_map(|solid| &solid.points);
    let points: Vec<Triple> = points.copied().collect();
    if memory.lent.readable() && !points.is_empty() && random.one_in(2) {
        planted(&mut memory.lent, &points, random);
    }
    longer(&mut memory.lent, random);
    Some((files, memory))
}

/// One memory and the files that are read into it, one after the other.
fn compared(tally: &mut Tally, names: &Names, [seed, number]: [u64; 2], wrong: Option<How>) {
    let mut random = Random::new(seed, number, 710);
    let random = &mut random;
    let Some((files, memory)) = made_for(names, [seed, number], random) else {
        return;
    };
    let Memory { told, room, .. } = &memory;
    tally.begin(format!("memory {number} of seed {seed}: {told}; {room}"));
    tally.met("room", room);
    let mut lent = memory.lent;
    for (bytes, told) in files {
        let above = random.pick(&ABOVE);
        let ask = Ask {
            office: random.pick(&[0, 0, 0, 0, 1, 1, 1, 1, above]),
            slot: random.bits() as u32,
            bytes,
        };
        let (expected, found) = answer(&lent, &ask, &Rule::REQUEST);
        match &found {
            Err((_, words)) => tally.met("answer", words),
            Ok(solid) => {
                tally.met("answer", "0");
                counted(tally, solid);
            }
        }
        let given = answered(&lent, &ask, wrong);
        let difference = expected.difference(&given);
        tally.same("readings", &None, &difference, || {
            format!("{told}; {ask:?}")
        });
        if let (Ok(solid), None, None) = (&found, &difference, wrong) {
            let behind = Behind {
                before: &lent,
                lent: &given.lent,
                solid,
            };
            behind.compared(tally, memory.rust.then_some(names), random);
        }
        unreadable(tally, &expected.lent, &ask.bytes, random, wrong);
        lent = expected.lent;
    }
}

// ---- files of others

/// Each file of a folder, read into new memory: its name, the number, how many faces, edges and vertices the tables have, and how often each reason stands in the report.
fn files(dir: &path::Path) -> ExitCode {
    let entries = fs::read_dir(dir).expect("the folder is read");
    let mut paths: Vec<_> = entries.map(|entry| entry.expect("a file").path()).collect();
    paths.retain(|path| path.extension().is_some_and(|end| end == "stl"));
    paths.sort();
    for path in paths {
        let bytes = fs::read(&path).expect("the file is read");
        let mut lent = Lent::new(LARGEST, 0, 0.0);
        assert_eq!(lent.make(0.001, 1), 0, "a new model");
        let mut id = [0];
        let number = lent.read_stl(&bytes, &mut id);
        let [_, _, _, faces, _, _, edges, vertices, ..] = used(&lent);
        let mut reasons = BTreeMap::new();
        if number == 0 {
            let (told, faults) = lent.check(id[0] as usize, false, 3, 4096, 0);
            assert_eq!((told[0], told.len()), (0, 2 + 4 * faults), "a report");
            for fault in told[2..].chunks(4) {
                *reasons.entry(fault[0]).or_insert(0) += 1;
            }
        }
        let reasons: Vec<String> = reasons.iter().map(|(r, n)| format!("{r}:{n}")).collect();
        let name = path.file_stem().expect("a name").to_string_lossy();
        println!(
            "{name} {number} {faces} {edges} {vertices} {}",
            reasons.join(",")
        );
    }
    ExitCode::SUCCESS
}

// ---- all of them

fn over(names: &Names, count: u64, seed: u64) -> ExitCode {
    let mut tally = Tally::default();
    let mut number = 0;
    while (tally.models as u64) < count {
        number += 1;
        compared(&mut tally, names, [seed, number], None);
    }
    tally.end_of("memories")
}

/// Each wrong station must be seen on one of the memories.
fn wrongs(names: &Names, count: u64, seed: u64) -> ExitCode {
    let mut unseen = 0;
    let all = all_wrongs();
    for (what, how) in &all {
        let mut tally = Tally::quiet();
        let mut number = 0;
        while (tally.models as u64) < count && tally.differing() == 0 {
            number += 1;
            compared(&mut tally, names, [seed, number], Some(*how));
        }
        if tally.differing() == 0 {
            println!("a station that {what}: not seen on {count} memories");
            unseen += 1;
        } else {
            println!("a station that {what}: seen on memory {number}");
        }
    }
    println!("{} wrong stations, {unseen} not seen", all.len());
    ExitCode::from(u8::from(unseen > 0))
}

fn main() -> ExitCode {
    let words: Vec<String> = env::args().skip(1).collect();
    if let [mode, dir] = &words[..]
        && mode == "files"
    {
        return files(dir.as_ref());
    }
    let (mode, numbers) = match words.split_first() {
        Some((first, rest)) if first.parse::<u64>().is_err() => (first.as_str(), rest),
        _ => ("", &words[..]),
    };
    let numbers: Result<Vec<u64>, _> = numbers.iter().map(|a| a.parse()).collect();
    let (count, seed) = match numbers.as_deref() {
        Ok([]) => (None, 1),
        Ok([count]) => (Some(*count), 1),
        Ok([count, seed]) => (Some(*count), *seed),
        _ => return usage(),
    };
    let names = Names::new();
    match mode {
        "" => over(&names, count.unwrap_or(100_000), seed),
        "wrong" => wrongs(&names, count.unwrap_or(5_000), seed),
        _ => usage(),
    }
}

fn usage() -> ExitCode {
    eprintln!("usage: reads [memories] [seed] | reads wrong [memories] [seed] | reads files DIR");
    ExitCode::from(2)
}
