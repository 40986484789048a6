//! Back pointers mended from the lists (W-208), compared with what the request's words make of the same tables (`mends.rs`): `mends [models] [seed]`;
//! `mends wrong [models] [seed]` for wrong stations, each of which must be seen. The exit status is 1 where anything differs.

use std::env;
use std::process::ExitCode;

use calls::layout::{LARGEST, LISTS, Lent};
use calls::mend_wrong::{Asked, How, wrongs as all_wrongs};
use calls::mends::{
    Change, DOWN, FINS, LENGTH, MARKS, MENDED, Mend, Mended, Refused, Rule, Walk, apply, held,
    parent, reaches, two_parents,
};
use calls::noise::{around, wild};
use calls::operations::list;
use calls::spoil::spoil;
use calls::tally::Tally;
use models::original::{self, Names, STRAYS, by};
use models::plain::{Edge, Face, Fin, Loop, Plain, Region, Version};
use models::random::Random;
use models::{Sort, made};

/// Offices that are none.
const ABOVE: [u32; 5] = [2, 2, 3, 1 << 31, u32::MAX];

// ---- models

/// Any id of a table: of a record, mostly, or of none.
fn any(plain: &Plain, table: usize, random: &mut Random) -> usize {
    let used = plain.used()[table];
    match random.below(6) {
        0 => random.pick(&STRAYS),
        1 => used + random.below(3),
        _ => random.below(used.max(1)),
    }
}

/// Of a table that has records, one of them.
fn record(plain: &Plain, table: usize, random: &mut Random) -> Option<usize> {
    let used = plain.used()[table];
    (used > 0).then(|| random.below(used))
}

/// A list that can be written to.
fn entries(plain: &mut Plain, j: usize, i: usize) -> &mut Vec<usize> {
    match j {
        0 => &mut plain.bodies[i].regions,
        1 => &mut plain.regions[i].shells,
        2 => &mut plain.shells[i].faces,
        5 => &mut plain.faces[i].loops,
        6 => &mut plain.loops[i].fins,
        _ => &mut plain.edges[i].fins,
    }
}

/// A parent that is wrong, or those of all records of a table: others', one and the same, or any.
fn pointers(plain: &mut Plain, random: &mut Random) -> Option<String> {
    let table = random.pick(&MENDED);
    let above = [0, 0, 1, 2, 3, 4][table];
    let one = record(plain, table, random)?;
    let same = any(plain, above, random);
    let how = random.pick(&["one", "one", "one", "all the same", "all", "every third"]);
    for id in 0..plain.used()[table] {
        match how {
            "one" if id != one => continue,
            "every third" if id % 3 > 0 => continue,
            _ => {}
        }
        let new = if how == "all the same" {
            same
        } else {
            any(plain, above, random)
        };
        *parent(plain, table, id) = new;
    }
    Some(format!("parents in table {table}: {how}, {one}"))
}

/// Fins that their edges do not list: one of an edge, all of it, all of every edge.
fn struck(plain: &mut Plain, random: &mut Random) -> Option<String> {
    let edge = record(plain, 6, random)?;
    let how = random.pick(&["last", "first", "all", "all of every edge"]);
    let fins = &mut plain.edges[edge].fins;
    match how {
        "all of every edge" => plain.edges.iter_mut().for_each(|r| r.fins.clear()),
        "all" => fins.clear(),
        _ if fins.is_empty() => return None,
        "last" => drop(fins.pop()),
        _ => drop(fins.remove(0)),
    }
    Some(format!("edge {edge}: fins struck, {how}"))
}

/// An edge with a list that is full, or nearly so: of other fins, of missing ones, or of one of its own again and again.
fn filled(plain: &mut Plain, random: &mut Random) -> Option<String> {
    let edge = record(plain, 6, random)?;
    let fill = any(plain, 5, random);
    let keeps = random.one_in(2);
    let most = random.pick(&[5, 6, 7, 7, 8, 8]);
    let fins = &mut plain.edges[edge].fins;
    if !keeps {
        fins.clear();
    }
    while fins.len() < most {
        fins.push(fill);
    }
    Some(format!(
        "edge {edge}: fin {fill} up to {most}, its own kept: {keeps}"
    ))
}

/// Several fins of one edge, up to more than it can list.
fn gathered(plain: &mut Plain, random: &mut Random) -> Option<String> {
    let (edge, first) = (record(plain, 6, random)?, record(plain, 5, random)?);
    let n = random.pick(&[2, 3, 6, 7, 8, 8, 9, 10]);
    let used = plain.fins.len();
    for fin in first..(first + n).min(used) {
        plain.fins[fin].edge = edge;
    }
    if random.one_in(2) {
        plain.edges[edge].fins.clear();
    }
    Some(format!("edge {edge}: of {n} fins from {first} on"))
}

/// A record listed once more: by its own parent, by any other, or by one that no body reaches.
fn twice(plain: &mut Plain, random: &mut Random) -> Option<String> {
    let level = random.below(5);
    let (table, _, most, of) = LISTS[DOWN[level]];
    let id = record(plain, of, random)?;
    let used = plain.used()[table];
    let own = (0..used).find(|&i| list(plain, DOWN[level], i).contains(&id));
    let (to, whose) = match random.below(4) {
        0 => (own?, "its own"),
        1 if table > 0 => (loose(plain, table)?, "a loose"),
        _ => (record(plain, table, random)?, "any"),
    };
    let to_list = entries(plain, DOWN[level], to);
    if to_list.len() == most {
        return None;
    }
    let at = random.below(to_list.len() + 1);
    to_list.insert(at, id);
    Some(format!(
        "table {of}: {id} listed by {whose} parent, {to}, at {at}"
    ))
}

/// A new record that nothing lists.
fn loose(plain: &mut Plain, table: usize) -> Option<usize> {
    let id = plain.used()[table];
    if id == LARGEST[table] {
        return None;
    }
    match table {
        1 => plain.regions.push(Region {
            body: 0,
            solid: false,
            shells: Vec::new(),
        }),
        3 => plain.faces.push(Face {
            loops: Vec::new(),
            ..plain.faces.first()?.clone()
        }),
        4 => plain.loops.push(Loop {
            face: 0,
            fins: Vec::new(),
        }),
        _ => {
            let mut shell = plain.shells.first()?.clone();
            shell.faces.clear();
            shell.wire_edges.clear();
            shell.acorn_vertices.clear();
            plain.shells.push(shell);
        }
    }
    Some(id)
}

/// An id of no record in a list of the walk, or as a fin's edge.
fn missing(plain: &mut Plain, random: &mut Random) -> Option<String> {
    let level = random.below(6);
    let gone = |used: usize, random: &mut Random| match random.one_in(3) {
        true => random.pick(&STRAYS),
        false => used + random.below(2),
    };
    let Some(&j) = DOWN.get(level) else {
        let fin = record(plain, 5, random)?;
        plain.fins[fin].edge = gone(plain.edges.len(), random);
        return Some(format!("fin {fin}: edge is missing"));
    };
    let (table, _, most, of) = LISTS[j];
    let (i, id) = (
        record(plain, table, random)?,
        gone(plain.used()[of], random),
    );
    let to = entries(plain, j, i);
    let at = random.below(to.len() + 1);
    if random.one_in(2) && at < to.len() {
        to[at] = id;
    } else if to.len() < most {
        to.insert(at, id);
    }
    Some(format!("list {j} of {i}: {id} at {at} is missing"))
}

/// The damages of the request, several at once, on a model that is sound or damaged in any way.
fn harmed(plain: &mut Plain, random: &mut Random) -> Vec<String> {
    let kinds = random.pick(&[0, 1, 1, 2, 2, 3, 4, 6, 8]);
    let damages = (0..kinds).filter_map(|_| match random.below(16) {
        0..6 => pointers(plain, random),
        6..10 => struck(plain, random),
        10 => filled(plain, random),
        11 => gathered(plain, random),
        12 | 13 => twice(plain, random),
        _ if random.one_in(2) => missing(plain, random),
        _ => pointers(plain, random),
    });
    damages.collect()
}

/// A model of the number with bodies of both offices, and what it is.
fn drawn(names: &Names, [seed, number]: [u64; 2], random: &mut Random) -> Option<(Plain, String)> {
    let sound: &[usize] = &[];
    let sound = (!random.one_in(4)).then_some(sound);
    let made = made(names, Sort::Several, seed, number, sound)?;
    let (mut plain, mut told) = (made.plain, made.told);
    told.extend(harmed(&mut plain, random));
    plain.version = random.pick(&[Version::First, Version::Second]);
    let offices: Vec<u32> = plain
        .bodies
        .iter()
        .map(|_| random.below(2) as u32)
        .collect();
    told.push(format!("offices {offices:?}"));
    Some((plain.of(&offices), told.join("; ")))
}

/// What is said nowhere made to look like something: unused slots hold copies of records, and the place behind the end of an edge's list a fin that names the edge.
fn ghosts(lent: &mut Lent, random: &mut Random) {
    for table in 0..7 {
        let used = lent.words[table] as usize;
        let stride = lent.word_at(table, 1) - lent.word_at(table, 0);
        for slot in used..lent.room[table] {
            if used > 0 {
                let from = lent.word_at(table, random.below(used));
                let to = lent.word_at(table, slot);
                lent.words.copy_within(from..from + stride, to);
            }
        }
    }
    for fin in 0..lent.words[5] as usize {
        let edge = lent.words[lent.word_at(5, fin) + 1];
        if edge < lent.words[6] {
            let at = lent.word_at(6, edge as usize) + LENGTH;
            let length = lent.words[at] as usize;
            if length < 8 {
                lent.words[at + 1 + length] = fin as u32;
            }
        }
    }
}

// ---- questions

/// Marks of any number, mostly enough, that hold anything.
fn marks(room: &[usize; 10], random: &mut Random) -> Vec<u8> {
    let some: usize = [1, 2, 4, 5, 6].iter().map(|&k| room[k]).sum();
    let short = random.pick(&[0, 1, some, MARKS - 1, MARKS - 1, MARKS / 2]);
    let enough = random.pick(&[MARKS, MARKS, MARKS, MARKS + 1, MARKS + 700]);
    let n = if random.one_in(12) { short } else { enough };
    let bits = random.bits();
    let noise = |k: usize| (bits.rotate_left(k as u32 % 61) >> (k % 7)) as u8;
    match random.below(3) {
        0 => vec![bits as u8; n],
        1 => vec![0; n],
        _ => (0..n).map(noise).collect(),
    }
}

/// A list for so many changes: just enough, too short by one, by a word or by all, longer, and of words that make no whole entry.
fn words(changes: usize, random: &mut Random) -> Vec<u32> {
    let exact = 6 * changes;
    let more = 1 + random.below(5);
    let n = match random.below(10) {
        0 => 0,
        1 => exact.saturating_sub(6),
        2 => exact.saturating_sub(more),
        3..6 => exact,
        6 | 7 => exact + more,
        8 => exact + 6,
        _ => exact + 60 + more,
    };
    let bits = random.bits();
    (0..n)
        .map(|k| (bits.rotate_left(k as u32 % 63)) as u32)
        .collect()
}

/// A body that is there, mostly, and the office that asks.
fn body_and_office(plain: &Plain, random: &mut Random) -> (usize, u32) {
    let behind = usize::from(random.one_in(8));
    let body = random.below((plain.bodies.len() + behind).max(1));
    let own = plain.bodies.get(body).map_or(0, |r| r.office);
    let above = random.pick(&ABOVE);
    let office = match random.below(12) {
        0 => 1 - own,
        1 => above,
        _ => own,
    };
    let far = [
        65_535,
        u32::MAX as usize,
        1 << 32,
        (1 << 32) + body,
        usize::MAX,
    ];
    let far = random.one_in(30).then(|| random.pick(&far));
    (far.unwrap_or(body), office)
}

/// A question about the model, with a list lent for the changes that there are.
fn question(plain: &Plain, room: &[usize; 10], random: &mut Random) -> Mend {
    let (body, office) = body_and_office(plain, random);
    let mut mend = Mend {
        office,
        body,
        dry: random.one_in(3),
        marks: marks(room, random),
        list: Vec::new(),
        count: random.pick(&[0, 1, 7, usize::MAX]),
    };
    let rule = Rule {
        entries: |_| usize::MAX,
        ..Rule::REQUEST
    };
    let found = mend.changes(plain, room, &rule);
    mend.list = words(found.map_or(3, |changes| changes.len()), random);
    mend
}

/// What the station answers, or a wrong one.
fn answered(asked: &Asked, wrong: Option<How>) -> Mended {
    let Asked {
        mend, lent, plain, ..
    } = asked;
    let mut given = mend.ours(lent);
    match wrong {
        Some(How::Told(alter)) => alter(asked, &mut given),
        Some(How::Asked(change)) => {
            let mut other = (*mend).clone();
            change(plain, &mut other);
            given = other.ours(lent);
        }
        Some(How::Of(change)) => {
            let mut other = (*lent).clone();
            change(&mut other);
            if other.readable() {
                let found = mend.changes(&held(&other), &lent.room, &Rule::REQUEST);
                given = mend.behind(lent, &found);
            }
        }
        Some(How::Rule(change)) => {
            let mut rule = Rule::REQUEST;
            change(&mut rule);
            let other = mend.changes(plain, &lent.room, &rule);
            if other != *asked.found {
                given = mend.behind(lent, &other);
            }
        }
        _ => {}
    }
    given
}

/// Both sides of one question: the number, the count, the list, the marks and all of the tables.
fn same(tally: &mut Tally, what: &'static str, asked: &Asked, wrong: Option<How>) -> Mended {
    let expected = asked.mend.behind(asked.lent, asked.found);
    let given = answered(asked, wrong);
    tally.compared(what, 1);
    if let Some(picture) = expected.difference(&given) {
        tally.differs(what, || format!("{}: {picture}", asked.mend));
    }
    expected
}

/// Counts a change by what it changes.
fn change_counted(tally: &mut Tally, plain: &Plain, &[class, id, field, place, ..]: &Change) {
    if field != FINS {
        let of = [
            "region's body",
            "shell's region",
            "",
            "loop's face",
            "fin's loop",
        ];
        return tally.met("changes", of[class as usize - 1]);
    }
    tally.met("changes", "edge's fin");
    if place as usize > plain.edges[id as usize].fins.len() {
        tally.met("changes", "edge's fin behind another added");
    }
    if place == 7 {
        tally.met("changes", "edge's eighth fin");
    }
}

/// Counts what a question finds.
fn counted(tally: &mut Tally, plain: &Plain, mend: &Mend, found: &Result<Vec<Change>, Refused>) {
    let changes = match found {
        Ok(changes) => changes,
        Err((_, words)) => {
            let other = words == "2 body" && mend.body < plain.bodies.len();
            return tally.met("refused", if other { "2 body, the other's" } else { words });
        }
    };
    for change in changes {
        change_counted(tally, plain, change);
    }
    let many = match changes.len() {
        n @ 0..3 => format!("{n:>2}"),
        3..10 => " 3 to 9".into(),
        10..50 => "10 to 49".into(),
        _ => "50 and more".into(),
    };
    let told = ["changes made", "changes told"][usize::from(mend.dry)];
    tally.met(told, many);
    let left = match mend.list.len() - 6 * changes.len() {
        n @ 0..6 => n.to_string(),
        _ => "6 and more".into(),
    };
    tally.met("words behind the entries", left);
}

/// Counts where the second parent of what is refused stands.
fn parents(tally: &mut Tally, plain: &Plain, mend: &Mend) {
    let rule = &Rule::REQUEST;
    let walk = Walk::of(plain, mend.office, mend.body, rule);
    let twice = two_parents(plain, mend.body, &walk.met, rule);
    let (table, id) = twice.expect("it is refused for two parents");
    let j = DOWN[[0, 0, 1, 2, 3, 4][table]];
    let above = LISTS[j].0;
    let holds = |i: &usize| list(plain, j, *i).contains(&id);
    for i in (0..plain.used()[above]).filter(holds) {
        let by = |office: u32| {
            let mut bodies = (0..plain.bodies.len()).filter(|&b| plain.bodies[b].office == office);
            bodies.any(|b| reaches(plain, b, above, i))
        };
        let times = list(plain, j, i)
            .iter()
            .filter(|&&entry| entry == id)
            .count();
        let whose = match reaches(plain, mend.body, above, i) {
            true if times > 1 => "twice in one list",
            true => "in the body",
            false if by(mend.office) => "in another body",
            false if by(1 - mend.office) => "in a body of the other office",
            false => "that no body reaches",
        };
        tally.met("parents of what has two", whose);
    }
}

// ---- asked

/// The Rust's own checker on the mended model: no record of the body points wrongly, and no edge lacks a fin.
fn checked(tally: &mut Tally, names: &Names, mended: &Plain, body: usize) {
    let mut plain = mended.clone();
    let Ok(model) = original::build(&mut plain, names) else {
        tally.met("checked by the Rust", "not built");
        return;
    };
    let told = by(plain.version, || {
        original::report(&model, names, body, false, 0)
    });
    let report = told.expect("topology alone").numbers;
    let reasons: Vec<u64> = report[2..].chunks_exact(4).map(|fault| fault[0]).collect();
    let mendable = |reason: &&u64| matches!(reason, 4 | 6 | 11 | 14 | 16);
    let left: Vec<&u64> = reasons.iter().filter(mendable).collect();
    let how = match [reasons.is_empty(), left.is_empty()] {
        [true, _] => "no fault",
        [_, true] => "other faults alone",
        _ => "pointers left",
    };
    tally.met("checked by the Rust", how);
    tally.same(
        "reasons 4, 6, 11, 14 and 16 behind a mending",
        &Vec::new(),
        &left,
        || format!("body {body}"),
    );
}

/// Behind a mending: what the memory holds is the model that the changes make, the Rust finds nothing left, and a second run finds no change.
fn behind(
    tally: &mut Tally,
    names: Option<&Names>,
    mend: &Mend,
    mended: (&Plain, &Lent),
    wrong: Option<How>,
) {
    let (plain, lent) = mended;
    tally.same(
        "changes applied to the tables",
        &plain.numbers(),
        &held(lent).numbers(),
        || mend.to_string(),
    );
    if let Some(names) = names {
        checked(tally, names, plain, mend.body);
    }
    let again = Mend {
        list: Vec::new(),
        marks: vec![1; MARKS],
        ..mend.clone()
    };
    let found = again.changes(plain, &lent.room, &Rule::REQUEST);
    tally.same(
        "second runs that change nothing",
        &Ok(Vec::new()),
        &found,
        || mend.to_string(),
    );
    let asked = Asked {
        mend: &again,
        lent,
        plain,
        found: &found,
    };
    same(tally, "second runs", &asked, wrong);
}

/// One question about a model in memory; the model and the memory are mended where they must be.
fn asked(
    tally: &mut Tally,
    names: Option<&Names>,
    (plain, lent): (&mut Plain, &mut Lent),
    mend: &Mend,
    wrong: Option<How>,
) {
    let found = mend.changes(plain, &lent.room, &Rule::REQUEST);
    counted(tally, plain, mend, &found);
    if matches!(&found, Err((1, words)) if words.contains("parents")) {
        parents(tally, plain, mend);
    }
    let what = ["bodies mended", "changes told"][usize::from(mend.dry)];
    let all = Asked {
        mend,
        lent,
        plain,
        found: &found,
    };
    let expected = same(tally, what, &all, wrong);
    if let (Ok(changes), false) = (&found, mend.dry) {
        apply(plain, changes);
        *lent = expected.lent;
        behind(tally, names, mend, (plain, lent), wrong);
    }
}

/// Memory that cannot be read: 9, whatever is asked.
fn unreadable(
    tally: &mut Tally,
    lent: &Lent,
    mend: &Mend,
    random: &mut Random,
    wrong: Option<How>,
) {
    let mut spoiled = lent.clone();
    let what = spoil(&mut spoiled, random);
    let lendable = spoiled.room.iter().zip(LARGEST).all(|(&n, most)| n <= most);
    if !lendable || spoiled.readable() {
        return;
    }
    let expected = mend.untouched(&spoiled, 9);
    let mut given = mend.ours(&spoiled);
    match wrong {
        Some(How::Office) if mend.office > 1 => given.number = 1,
        Some(How::Marks) if mend.marks.len() < MARKS => given.number = 8,
        _ => {}
    }
    tally.met("refused", "9");
    tally.compared("garbage", 1);
    if let Some(picture) = expected.difference(&given) {
        tally.differs("garbage", || format!("{what}: {mend}: {picture}"));
    }
}

/// Garbage that can be read. Of its lists all, most or some are made short ones of ids that are there, so that not all of it is refused.
fn tamed(random: &mut Random) -> Lent {
    let mut lent = wild(random);
    let used: [usize; 10] = std::array::from_fn(|k| lent.words[k] as usize);
    let wild_one_in = random.pick(&[2, 10, 100, 10_000]);
    for (table, place, _, of) in DOWN.map(|j| LISTS[j]) {
        for i in 0..used[table] {
            if random.one_in(wild_one_in) {
                continue;
            }
            let at = lent.word_at(table, i) + place;
            let n = if used[of] > 0 { random.below(3) } else { 0 };
            lent.words[at] = n as u32;
            lent.words[at + 1..][..n].fill_with(|| random.below(used[of]) as u32);
        }
    }
    for fin in 0..used[5] {
        let at = lent.word_at(5, fin) + 1;
        if !random.one_in(wild_one_in) {
            lent.words[at] = random.below(used[6].max(1)) as u32;
        }
    }
    lent
}

fn readable(tally: &mut Tally, random: &mut Random, wrong: Option<How>) {
    let mut lent = tamed(random);
    let mut plain = held(&lent);
    for _ in 0..3 {
        let mend = question(&plain, &lent.room, random);
        let found = mend.changes(&plain, &lent.room, &Rule::REQUEST);
        let what = match &found {
            Err((number, _)) => format!("refused with {number}"),
            Ok(changes) if changes.is_empty() => "no change".into(),
            Ok(_) => "changes".into(),
        };
        tally.met("readable garbage", what);
        asked(tally, None, (&mut plain, &mut lent), &mend, wrong);
    }
}

/// One model, compared.
fn compared(tally: &mut Tally, names: &Names, [seed, number]: [u64; 2], wrong: Option<How>) {
    let mut random = Random::new(seed, number, 830);
    let random = &mut random;
    let Some((mut plain, told)) = drawn(names, [seed, number], random) else {
        return;
    };
    tally.begin(format!("model {number} of seed {seed}: {told}"));
    let mut lent = around(&plain, random);
    if random.one_in(2) {
        ghosts(&mut lent, random);
    }
    for _ in 0..3 + plain.bodies.len() {
        let mend = question(&plain, &lent.room, random);
        if random.one_in(2) {
            let (mut plain, mut lent) = (plain.clone(), lent.clone());
            asked(tally, Some(names), (&mut plain, &mut lent), &mend, wrong);
        } else {
            asked(tally, Some(names), (&mut plain, &mut lent), &mend, wrong);
        }
    }
    let mend = question(&plain, &lent.room, random);
    unreadable(tally, &lent, &mend, random, wrong);
    if random.one_in(3) {
        readable(tally, random, wrong);
    }
}

/// As many faces, loops, fins and edges as there can be: a prism, whose loops get the two fins of each new edge.
fn crowded() -> Plain {
    let mut plain = Plain::prisms(1, LARGEST[3] - 2);
    while plain.edges.len() < LARGEST[6] {
        let edge = plain.edges.len();
        let fins = [0, 1].map(|k| plain.fins.len() + k);
        plain.edges.push(Edge {
            fins: fins.to_vec(),
            ..plain.edges[0].clone()
        });
        for fin in fins {
            let mut loops = plain.loops.iter_mut().enumerate();
            let (owner, round) = loops
                .find(|(_, r)| r.fins.len() < LISTS[6].2)
                .expect("a loop with room");
            round.fins.push(fin);
            plain.fins.push(Fin {
                owner,
                edge,
                positive: true,
                pcurve: false,
            });
        }
    }
    plain
}

/// The largest tables with every pointer wrong and every edge's list empty: the longest list of changes, lent just that and an entry less.
fn largest(tally: &mut Tally, names: &Names) {
    tally.begin("the largest tables".into());
    let mut plain = crowded();
    for table in MENDED {
        for id in 0..plain.used()[table] {
            *parent(&mut plain, table, id) = STRAYS[id % STRAYS.len()];
        }
    }
    plain.edges.iter_mut().for_each(|r| r.fins.clear());
    let used = plain.used();
    let most = used[1] + used[2] + used[4] + 2 * used[5];
    let mut lent = Lent::holding(&plain, LARGEST, u32::MAX, f64::NAN);
    for (entries, dry) in [(most - 1, false), (most, true), (most, false)] {
        let mend = Mend {
            office: 0,
            body: 0,
            dry,
            marks: vec![255; MARKS],
            list: vec![7; 6 * entries],
            count: 0,
        };
        asked(tally, Some(names), (&mut plain, &mut lent), &mend, None);
    }
}

// ---- all of them

fn over(names: &Names, count: u64, seed: u64) -> ExitCode {
    let mut tally = Tally::default();
    largest(&mut tally, names);
    let mut number = 0;
    while (tally.models as u64) < count {
        number += 1;
        compared(&mut tally, names, [seed, number], None);
    }
    tally.end()
}

/// Each wrong station must be seen on one of the models.
fn wrongs(names: &Names, count: u64, seed: u64) -> ExitCode {
    let (mut all, mut unseen) = (0, 0);
    for (what, how) in all_wrongs() {
        let mut tally = Tally::quiet();
        let mut number = 0;
        while (tally.models as u64) < count && tally.differing() == 0 {
            number += 1;
            compared(&mut tally, names, [seed, number], Some(how));
        }
        all += 1;
        if tally.differing() == 0 {
            println!("a station that {what}: not seen on {count} models");
            unseen += 1;
        } else {
            println!("a station that {what}: seen on model {number}");
        }
    }
    println!("{all} wrong stations, {unseen} not seen");
    ExitCode::from(u8::from(unseen > 0))
}

fn main() -> ExitCode {
    let words: Vec<String> = env::args().skip(1).collect();
    let (mode, numbers) = match words.split_first() {
        Some((first, rest)) if first.parse::<u64>().is_err() => (first.as_str(), rest),
        _ => ("", &words[..]),
    };
    let numbers: Result<Vec<u64>, _> = numbers.iter().map(|a| a.parse()).collect();
    let (count, seed) = match numbers.as_deref() {
        Ok([]) => (None, 1),
        Ok([count]) => (Some(*count), 1),
        Ok([count, seed]) => (Some(*count), *seed),
        _ => return usage(),
    };
    let names = Names::new();
    match mode {
        "" => over(&names, count.unwrap_or(200_000), seed),
        "wrong" => wrongs(&names, count.unwrap_or(2_000), seed),
        _ => usage(),
    }
}

fn usage() -> ExitCode {
    eprintln!("usage: mends [models] [seed] | mends wrong [models] [seed]");
    ExitCode::from(2)
}
