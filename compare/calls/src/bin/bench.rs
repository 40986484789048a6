//! The time of both sides' calls on the same models, in one process: `bench`. Each row is a call on one
//! model, with the time of the Rust, of ours, and ours as a share of the Rust's.

use std::hint::black_box;
use std::time::{Duration, Instant};

use calls::courses::{Ask, COURSE, Rule as Coursing, STRIDE, Yard, read};
use calls::layout::{LARGEST, Lent};
use calls::mends::{self, MARKS, Mend, apply};
use calls::offices::Station;
use calls::sheets::Stone;
use calls::slabs;
use calls::stl::{self, file};
use calls::stl_files::{self, Around, sphere};
use calls::stl_read;
use calls::walks::Walk;
use gensolid_check::{CheckOptions, check_body};
use gensolid_topo::{Model, body_bounding_box, body_volume, split_line_edge};
use models::original::{self, Names};
use models::plain::Plain;
use models::random::Random;

/// The least time of one call, of several runs of so many calls that each takes long enough.
fn time(mut call: impl FnMut()) -> Duration {
    let mut calls = 1;
    loop {
        let start = Instant::now();
        (0..calls).for_each(|_| call());
        if start.elapsed() > Duration::from_millis(20) {
            break;
        }
        calls *= 2;
    }
    let runs = (0..7).map(|_| {
        let start = Instant::now();
        (0..calls).for_each(|_| call());
        start.elapsed() / calls
    });
    runs.min().expect("seven runs")
}

fn micro(time: Duration) -> f64 {
    time.as_secs_f64() * 1e6
}

fn row(what: &str, rust: Duration, ours: Duration) {
    println!(
        "  {what:24} Rust {:>9.3} us, ours {:>9.3} us, ratio {:.3}",
        micro(rust),
        micro(ours),
        ours.as_secs_f64() / rust.as_secs_f64()
    );
}

fn model(names: &Names, plain: &mut Plain) -> Model {
    original::build(plain, names).expect("the Rust makes it")
}

/// What a call takes on a copy, without the copying.
fn on_a_copy<T: Clone>(whole: &T, mut call: impl FnMut(&mut T)) -> Duration {
    let copying = time(|| drop(black_box(black_box(whole).clone())));
    let both = time(|| {
        let mut copy = black_box(whole).clone();
        call(&mut copy);
        drop(black_box(copy));
    });
    both.saturating_sub(copying)
}

/// The stone taken onto a sheet (W-201), on the same model with its points moved onto the grid: beside the Rust's float volume, and beside ours.
fn whole_number(model: &Model, names: &Names, lent: &Lent) {
    let mut plain = original::read(model, names);
    for x in plain.vertices.iter_mut().flat_map(|r| &mut r.point) {
        *x = (*x * 16.0).round() / 16.0;
    }
    let lent = Lent::holding(&plain, lent.room, 0, 0.0);
    let gridded = original::build(&mut plain, names).expect("the Rust makes it");
    let rust = time(|| drop(black_box(body_volume(&gridded, names.bodies[0]))));
    // A new sheet each time, and marks as for the volume.
    let ours = time(|| {
        let mut sheet = [0; 5];
        let [mut faces, ..] = lent.marks(0);
        assert_eq!(black_box(&lent).take(0, &mut faces, &mut sheet), 0, "a stone on the grid");
        black_box(sheet);
    });
    row("whole number", rust, ours);
    let volume = time(|| drop(black_box(lent.volume(0, 0))));
    println!(
        "  {:24} volume {:>7.3} us, ours {:>9.3} us, ratio {:.3}",
        "whole number by volume",
        micro(volume),
        micro(ours),
        ours.as_secs_f64() / volume.as_secs_f64()
    );
}

/// The slab profile, beside the comparison's: all rules are asked of both, and prisms break the first.
fn profile(lent: &Lent) {
    let ask = slabs::Ask {
        office: 0,
        body: 0,
        short: false,
        slots: [0; 3],
        areas: vec![0; 512],
    };
    let request = slabs::Rule::REQUEST;
    let rust = time(|| drop(black_box(slabs::answer(lent, &ask, &request))));
    row("slab profile", rust, time(|| drop(black_box(ask.ours(lent, 0, 0)))));
}

/// The body as binary STL (W-209), on the same model with its points made binary32 values: beside the writer in Rust that the comparison goes by, which asks the Rust's
/// volume as ours asks its own; and how many bytes of file a second.
fn drawing(model: &Model, names: &Names, lent: &Lent) {
    let mut plain = original::read(model, names);
    for x in plain.vertices.iter_mut().flat_map(|r| &mut r.point) {
        *x = f64::from(*x as f32);
    }
    let lent = Lent::holding(&plain, lent.room, 0, 0.0);
    let narrow = original::build(&mut plain, names).expect("the Rust makes it");
    let station = Station {
        model: &narrow,
        names,
        plain: &plain,
    };
    let rust = time(|| drop(black_box(file(&Stone::of(station, 0, 0), &stl::Rule::REQUEST))));
    let long = file(&Stone::of(station, 0, 0), &stl::Rule::REQUEST)
        .expect("binary32 values")
        .len();
    let mut bytes = vec![0; long];
    let ours = time(|| {
        let [mut faces, ..] = lent.marks(0);
        let number = black_box(&lent).write_stl(0, &mut faces, &mut bytes, &mut [0]);
        assert_eq!(number, 0, "a drawing");
        black_box(&bytes);
    });
    row("binary STL", rust, ours);
    let rate = |time: Duration| long as f64 / time.as_secs_f64() / 1e6;
    println!(
        "  {:24} Rust {:>7.1} MB/s, ours {:>7.1} MB/s, of {long} bytes",
        "binary STL",
        rate(rust),
        rate(ours)
    );
}

/// A course (W-213) of so many entries on each of four levels, over all bodies in turn: beside the count in Rust that the comparison goes by, of stones that it knows, and
/// beside the same stones taken in on a sheet one by one.
fn coursed(what: &str, bodies: usize, entries: usize, names: &Names) {
    let mut plain = Plain::prisms(bodies, 4);
    for x in plain.vertices.iter_mut().flat_map(|r| &mut r.point) {
        *x = (*x * 16.0).round() / 16.0;
    }
    let gridded = model(names, &mut plain);
    let lent = Lent::holding(&plain, plain.used(), 0, 0.0);
    let mut words = vec![0; 1 + STRIDE * 4];
    words[0] = 4;
    for (at, word) in words[1..].iter_mut().enumerate() {
        let (course, place) = (at / STRIDE, at % STRIDE);
        *word = match (course, place) {
            (_, 0) => entries as u32,
            (0, _) => ((place - 1) % bodies) as u32,
            _ => COURSE + course as u32 - 1,
        };
    }
    let station = Station {
        model: &gridded,
        names,
        plain: &plain,
    };
    let stones: Vec<Stone> = (0..bodies).map(|b| Stone::of(station, 0, b)).collect();
    let mut yard = Yard::of(station, &stones);
    yard.courses = read(&words).expect("a table");
    let ask = Ask {
        office: 0,
        course: 3,
        short: false,
        slots: [0; 3],
    };
    let rust = time(|| drop(black_box(yard.answer(black_box(&ask), &Coursing::REQUEST))));
    let ours = time(|| assert_eq!(black_box(&ask).ours(&lent, &words, 0, 0).number, 0, "a course"));
    row(what, rust, ours);
    let taken = time(|| {
        let mut sheet = [0; 5];
        let [mut faces, ..] = lent.marks(0);
        for k in 0..entries.pow(4) {
            assert_eq!(lent.take(k % entries % bodies, &mut faces, &mut sheet), 0, "a stone");
        }
        black_box(sheet);
    });
    println!("  {what:24} one by one {:>9.3} us, ratio {:.4}", micro(taken), ours.as_secs_f64() / taken.as_secs_f64());
}

/// A file read into a body (W-210), beside the reader in Rust that the comparison goes by, which finds corners and edges by hash maps: two spheres, and as many triangles
/// as there can be that share nothing. Into memory of the largest capacities with no record in it; the counts are put back each time on both sides.
fn reading() {
    println!("binary STL read, the largest");
    let files = [
        ("512 triangles", sphere(32, 9)),
        ("500 triangles", sphere(25, 11)),
        ("512 apart", stl_files::apart(512)),
    ];
    for (what, triangles) in files {
        let bytes = stl_files::file(&triangles, &Around::ZEROS, &mut Random::new(1, 0, 0));
        let long = bytes.len();
        let ask = stl_read::Ask { office: 0, slot: 0, bytes };
        let empty = Plain { precision: 0.001, ..Plain::default() };
        let mut lent = Lent::holding(&empty, LARGEST, 0, 0.0);
        let rust = time(|| {
            lent.words[..10].fill(0);
            assert_eq!(stl_read::read(black_box(&mut lent), &ask), Ok(0), "read");
        });
        let ours = time(|| {
            lent.words[..10].fill(0);
            assert_eq!(black_box(&mut lent).read_stl(&ask.bytes, &mut [1]), 0, "read");
        });
        row(&format!("read, {what}"), rust, ours);
        let rate = |time: Duration| long as f64 / time.as_secs_f64() / 1e6;
        println!(
            "  {:24} Rust {:>7.1} MB/s, ours {:>7.1} MB/s, of {long} bytes",
            format!("read, {what}"),
            rate(rust),
            rate(ours)
        );
    }
}

/// The fins in the order in which the report comes to them, each with its region's place in the body.
fn checked(plain: &Plain) -> Vec<(usize, usize)> {
    let mut fins = Vec::new();
    for (place, &region) in plain.bodies[0].regions.iter().enumerate() {
        for &shell in &plain.regions[region].shells {
            let faces = plain.shells[shell].faces.iter().map(|&id| &plain.faces[id]);
            for face in faces.filter(|r| r.front.is_none_or(|front| front == shell)) {
                let loops = face.loops.iter().flat_map(|&id| &plain.loops[id].fins);
                fins.extend(loops.map(|&fin| (place, fin)));
            }
        }
    }
    fins
}

/// The first fault alone (W-207) beside ours of the full report: of the body with a fin that names another loop, the first that the report comes to, which is in
/// the first region, and the middle one; and of the body as it is. The test of refusal 9 is a part of both; its share of the report stands behind the ratio.
fn first_fault(model: &Model, names: &Names, room: [usize; 10], test: Duration) {
    let plain = original::read(model, names);
    let fins = checked(&plain);
    assert_eq!(fins[0].0, 0, "the first region");
    for (what, place) in [
        ("first region", Some(0)),
        ("middle", Some(fins.len() / 2)),
        ("none", None),
    ] {
        let mut plain = plain.clone();
        let fault = place.map(|place| fins[place].1);
        if let Some(fin) = fault {
            let owner = &mut plain.fins[fin].owner;
            *owner = (*owner + 1) % plain.loops.len();
        }
        let expected = fault.map_or([0; 5], |fin| [1, 2, 5, fin as u32, 14]);
        let lent = Lent::holding(&plain, room, 0, 0.0);
        for (options, geometry) in [("topology", false), ("3 samples", true)] {
            let report = time(|| drop(black_box(lent.check(0, geometry, 3, 16, 0))));
            let ours = time(|| {
                let mut slots = [0; 5];
                let [mut faces, mut edges, _] = lent.marks(0);
                let marks = [&mut faces[..], &mut edges[..]];
                let number = black_box(&lent).first_fault(0, geometry.into(), 3, marks, &mut slots);
                assert_eq!((number, black_box(slots)), (0, expected), "the first fault");
            });
            let share = |time: Duration| time.as_secs_f64() / report.as_secs_f64();
            println!(
                "  {:30} report {:>8.3} us, ours {:>8.3} us, ratio {:.3}, the test {:.3}",
                format!("first, {what}, {options}"),
                micro(report),
                micro(ours),
                share(ours),
                share(test)
            );
        }
    }
}

/// The mending (W-208) beside the Rust of `mends.rs`, which was written from the request's words: of the body as it is, and with a wrong owner of every fin, which is
/// written anew each time on both sides. The Rust works on its records, and does not test whether the memory can be read.
fn mended(model: &Model, names: &Names, room: [usize; 10]) {
    let plain = original::read(model, names);
    let fins = plain.fins.len();
    for (what, wrong) in [("nothing to change", false), ("every owner wrong", true)] {
        let mut mend = Mend {
            office: 0,
            body: 0,
            dry: false,
            marks: vec![0; MARKS],
            list: vec![0; 6 * fins],
            count: 0,
        };
        let expected = if wrong { fins } else { 0 };
        let other = plain.loops.len();
        let mut records = plain.clone();
        let rust = time(|| {
            if wrong {
                records.fins.iter_mut().for_each(|r| r.owner = other);
            }
            let changes = mend.changes(black_box(&records), &room, &mends::Rule::REQUEST);
            let changes = changes.expect("it can be mended");
            assert_eq!(changes.len(), expected, "as many changes");
            apply(&mut records, black_box(&changes));
        });
        let mut lent = Lent::holding(&plain, room, 0, 0.0);
        let first = lent.word_at(5, 0);
        let ours = time(|| {
            if wrong {
                let fins = lent.words[first..][..4 * fins].chunks_exact_mut(4);
                fins.for_each(|fin| fin[0] = other as u32);
            }
            let mut count = [0];
            let lists = (&mut mend.marks[..], &mut mend.list[..]);
            assert_eq!(black_box(&mut lent).mend(0, lists, &mut count), 0, "mended");
            assert_eq!(black_box(count), [expected], "as many changes");
        });
        row(&format!("mend, {what}"), rust, ours);
    }
}

fn larger(model: &Model, names: &Names, lent: &Lent) {
    let body = names.bodies[0];
    let rust = time(|| drop(black_box(body_bounding_box(model, body))));
    row("box", rust, time(|| drop(black_box(lent.bounding_box(0, 0)))));
    let rust = time(|| drop(black_box(body_volume(model, body))));
    row("volume", rust, time(|| drop(black_box(lent.volume(0, 0)))));
    whole_number(model, names, lent);
    drawing(model, names, lent);
    profile(lent);
    for (what, geometry) in [("report, topology", false), ("report, 3 samples", true)] {
        let options = CheckOptions { geometry, edge_samples: 3 };
        let rust = time(|| drop(black_box(check_body(model, body, &options))));
        row(what, rust, time(|| drop(black_box(lent.check(0, geometry, 3, 16, 0)))));
    }
    // Each of many edges once on a copy, since a split leaves another model; capacities as used have no slot for it.
    if lent.room == LARGEST {
        let edges = original::read(model, names).edges.len().min(100);
        let rust = on_a_copy(model, |model| {
            (0..edges).for_each(|e| drop(black_box(split_line_edge(model, names.edges[e], 0.5))));
        });
        let ours = |lent: &Lent| {
            on_a_copy(lent, |lent| {
                for e in 0..edges {
                    black_box(lent.split_alone(e, 0.5));
                }
            })
        };
        row("split", rust / edges as u32, ours(lent) / edges as u32);
        // The second half of the bodies are the other office's, and each split walks them; the edges are of the first half.
        let bodies = lent.words[0] as usize;
        if bodies > 1 {
            let mut lent = lent.clone();
            for body in bodies / 2..bodies {
                let at = lent.word_at(0, body) + 1;
                lent.words[at] = 1;
            }
            row(
                "split, two offices",
                rust / edges as u32,
                ours(&lent) / edges as u32,
            );
        }
    }
}

fn main() {
    let names = Names::new();
    let mut models = Vec::new();
    for (what, bodies, sides) in [
        ("a box", 1, 4),
        ("a prism of 500 sides", 1, 500),
        ("60 bodies", 60, 4),
    ] {
        models.push((what, model(&names, &mut Plain::prisms(bodies, sides))));
    }
    let mut split = model(&names, &mut Plain::prisms(1, 500));
    let edges = original::read(&split, &names).edges;
    for (id, _) in edges
        .iter()
        .enumerate()
        .filter(|(_, edge)| edge.fins.len() == 2)
        .take(500)
    {
        split_line_edge(&mut split, names.edges[id], 0.5).expect("a split");
    }
    models.insert(2, ("a body with 2,000 edges", split));

    println!("courses of four levels (W-213)");
    coursed("16 entries, one body", 1, 16, &names);
    coursed("16 entries, 60 bodies", 60, 16, &names);
    coursed("one stone, one body", 1, 1, &names);
    coursed("one stone, 60 bodies", 60, 1, &names);

    for (what, model) in &models {
        let plain = original::read(model, &names);
        for (lent, room) in [
            ("capacities as used", plain.used()),
            ("the largest", LARGEST),
        ] {
            println!("{what}, {lent}");
            let lent = Lent::holding(&plain, room, 0, 0.0);
            let body = names.bodies[0];
            let test = time(|| {
                black_box(black_box(&lent).precision().expect("readable"));
            });
            println!(
                "  {:24} {:>24} {:>9.3} us",
                "the test of refusal 9",
                "",
                micro(test)
            );
            let rust = [
                time(|| drop(black_box(model.body_faces(body)))),
                time(|| drop(black_box(model.body_edges(body)))),
                time(|| drop(black_box(model.body_vertices(body)))),
            ];
            let mut walk = Walk::new(&lent, 4096, 0);
            for (which, rust) in rust.into_iter().enumerate() {
                let ours = time(|| {
                    black_box(walk.call(black_box(&lent), which, 0));
                });
                row(["faces", "edges", "vertices"][which], rust, ours);
            }
            larger(model, &names, &lent);
            if plain.edges.len() == 2000 {
                first_fault(model, &names, room, test);
                mended(model, &names, room);
            }
        }
    }
    reading();
}
