//! Writes random models with what the Rust answers about them, as statements for the prover:
//!
//!     models FOLDER COUNT SEED FIRST BATCH [KEPT]
//!
//! FOLDER/batch-1.antt and so on have BATCH models each, from the number FIRST on. A model is made
//! of the seed and its number. Of its damages all are done, or those that KEPT numbers (`0,2`; `-`
//! for none). What was met is counted, and the counts are printed.

use std::collections::BTreeMap;
use std::fs;

use gensolid_topo::Model;

use models::offices::{body_for, edge_for};
use models::original::{self, Names, Told};
use models::plain::{self, Plain, Version, bits, list};
use models::random::Random;
use models::{Made, Sort, either, fraction, made};

const HEAD: &str = "-- Models and the Rust's answers, written by compare/models.
use Rattle.std.specs.Prelude.{◌≡◌, refl, true, false, [], ◌∷◌}
use Rattle.std.proofs.Math.Option.{none, some}
use Rattle.geom_lines_planes.specs.declared.tolerance.Tolerance.TheVariants.{Session}
use Rattle.geom_lines_planes.specs.declared.tolerance.Version.TheVariants.{First, Second}
use Rattle.meaning.specs.Model.{Model, office-0, office-1, acorn, wire, sheet, solid, general, positive, negative}
use Rattle.meaning.specs.Computing.{computing}
use Rattle.meaning.specs.Shown.{own, at, body_r, region_r, shell_r, face_r, loop_r, fin_r, edge_r, vertex_r, line_r, plane_r, other_r, model_r, tables, faces, edges, vertices, ends, box, volume, report, bounds, split, behind, edges_for, split_for, behind_for}
";

fn numbers(list: &[u64]) -> String {
    plain::list(list.iter().map(|n| {
        if *n < 1 << 32 {
            n.to_string()
        } else {
            format!("0x{n:x}")
        }
    }))
}

fn tables(plain: &Plain) -> String {
    let rows = |rows: &Vec<Vec<u64>>| list(rows.iter().map(|row| numbers(row)));
    list(plain.numbers().iter().map(|table| rows(table) + "\n   "))
}

/// What has been met, and how often.
#[derive(Default)]
struct Counts(BTreeMap<String, BTreeMap<String, usize>>);

impl Counts {
    fn add(&mut self, what: &str, case: impl ToString) {
        let cases = self.0.entry(what.into()).or_default();
        *cases.entry(case.to_string()).or_default() += 1;
    }

    /// The call that a row asks, and its answer.
    fn answer(&mut self, what: &str, call: String, answer: Told) -> Row {
        self.add(what, answer.words);
        (call, answer.numbers)
    }
}

/// What is asked, as a term, and the answer's numbers.
type Row = (String, Vec<u64>);

struct Writer {
    text: String,
    counts: Counts,
    names: Names,
}

/// One model, asked about.
struct Asked<'a> {
    name: String,
    model: &'a Model,
    plain: &'a Plain,
    samples: usize,
    /// Edges that are of more interest than others.
    near: Vec<usize>,
    /// Whether the model behind an accepted split is asked about too.
    follow: bool,
}

impl Writer {
    fn statement(&mut self, model: &str, what: &str, left: &str, right: &str) {
        self.text += &format!(
            "\n{model}-{what} : {left} ≡ {right}\nunfolding {model} computing\n{model}-{what} = refl\n"
        );
    }

    /// One statement about several answers.
    fn answers(&mut self, model: &str, what: &str, rows: &[Row]) {
        let left = list(rows.iter().map(|row| &row.0));
        let right = list(rows.iter().map(|row| numbers(&row.1)));
        self.statement(model, what, &left, &right);
    }

    fn ask(&mut self, asked: &Asked, random: &mut Random) {
        let Asked {
            name, model, plain, ..
        } = asked;
        let term = plain.term();
        self.text += &format!("\nunfoldable {name} : Model\n{name} =\n  {term}\n");
        self.statement(name, "tables", &format!("tables {name}"), &tables(plain));

        // Each body, and one that is missing.
        let [mut walks, mut boxes, mut volumes, mut reports] = [const { Vec::new() }; 4];
        for body in 0..=plain.bodies.len() {
            let counts = &mut self.counts;
            let found = original::walks(model, &self.names, body);
            for (what, found) in ["faces", "edges", "vertices"].into_iter().zip(found) {
                let call = format!("{what} {name} {body}");
                walks.push(counts.answer(&format!("walk of {what}"), call, found));
            }
            let found = original::boxed(model, &self.names, body);
            boxes.push(counts.answer("box", format!("box {name} {body}"), found));
            let found = original::volume(model, &self.names, body);
            volumes.push(counts.answer("volume", format!("volume {name} {body}"), found));
            let found = original::report(model, &self.names, body, false, asked.samples)
                .expect("without geometry nothing is left out");
            let call = format!("report {name} false {} {body}", asked.samples);
            reports.push((call, found.numbers));
        }
        self.answers(name, "walks", &walks);
        self.offices(asked, random);
        self.answers(name, "box", &boxes);
        self.answers(name, "volume", &volumes);
        self.answers(name, "topology", &reports);

        for body in 0..plain.bodies.len() {
            let samples = asked.samples;
            let found = match original::report(model, &self.names, body, true, samples) {
                Ok(found) => found,
                Err(why) => {
                    self.counts
                        .add("reports with geometry", format!("left out, {why}"));
                    continue;
                }
            };
            self.counts.add("off curve", found.words);
            let found = found.numbers;
            let faults = &found[2..];
            let sort = match (faults.len(), found[1]) {
                (0, 0) => "valid",
                (0, _) => "no fault, some unchecked",
                (_, 0) => "faults",
                _ => "faults, some unchecked",
            };
            self.counts.add("reports with geometry", sort);
            for fault in faults.chunks(4) {
                self.counts.add("reasons", format!("{:>2}", fault[0]));
            }
            let row = (format!("report {name} true {samples} {body}"), found);
            self.answers(name, &format!("geometry-{body}"), &[row]);
        }

        let fins = [(); 3].map(|_| random.below(plain.fins.len() + 1));
        let ends: Vec<_> = fins
            .into_iter()
            .map(|fin| {
                let found = original::ends(model, &self.names, fin);
                let call = format!("ends {name} {fin}");
                self.counts.answer("fin_vertices", call, found)
            })
            .collect();
        self.answers(name, "ends", &ends);
        self.splits(asked, random);
    }

    /// The walk of edges of the same bodies, by one of the offices.
    fn offices(&mut self, asked: &Asked, random: &mut Random) {
        let Asked {
            name, model, plain, ..
        } = asked;
        let office = random.below(2) as u32;
        let mut rows = Vec::new();
        for body in 0..=plain.bodies.len() {
            let seen = body_for(plain, office, body);
            let [_, found, _] = original::walks(model, &self.names, seen);
            if seen != body {
                self.counts.add("offices", "a body of the other's");
            }
            rows.push((format!("edges_for {name} {office} {body}"), found.numbers));
        }
        self.answers(name, "office", &rows);
    }

    /// The model once more, of version 2, with own tolerances on either side of the session's.
    fn second(&mut self, made: &Made, seed: u64, number: u64) {
        let mut random = Random::new(seed, number, 101);
        let Some(made) = either(made, &self.names, &mut random) else {
            return;
        };
        self.counts.add("models", "of version 2");
        let asked = Asked {
            name: format!("model-{number}-second"),
            model: &made.model,
            plain: &made.plain,
            samples: 3,
            near: made.near,
            follow: false,
        };
        self.ask(&asked, &mut random);
    }

    fn splits(&mut self, asked: &Asked, random: &mut Random) {
        let Asked {
            name, model, plain, ..
        } = asked;
        let mut edges: Vec<usize> = asked.near.clone();
        edges.push(random.below(plain.edges.len() + 1));
        if asked.follow {
            edges.push(random.below(plain.edges.len() + 1));
        }
        edges.sort_unstable();
        edges.dedup();
        let bounds: Vec<_> = edges
            .iter()
            .map(|&edge| {
                let found = original::bounds(model, &self.names, edge);
                let call = format!("bounds {name} {edge}");
                self.counts.answer("bounds", call, found)
            })
            .collect();
        self.answers(name, "bounds", &bounds);

        let mut questions: Vec<(usize, f64)> = Vec::new();
        for (&edge, (_, bounds)) in edges.iter().zip(&bounds) {
            let part = random.part();
            questions.push((edge, random.pick(&[0.25, 0.5, part])));
            if asked.follow && random.one_in(3) {
                questions.push((edge, fraction(random, plain.precision, bounds)));
            }
        }
        // All tables behind the first split that is accepted and the first that is not.
        let mut shown = [false; 2];
        for (number, (edge, fraction)) in questions.into_iter().enumerate() {
            let mut after = (*model).clone();
            let found = original::split(&mut after, &self.names, edge, fraction);
            let refused = found.refused();
            let call = format!("{name} {edge} 0x{:x}", bits(fraction));
            let row = self.counts.answer("split", format!("split {call}"), found);
            // And by an office, or by one that is none.
            let office = random.pick(&[0, 0, 0, 1, 1, 1, 2]);
            let seen = edge_for(model, &self.names, plain, office, edge);
            let mut found = original::split(&mut (*model).clone(), &self.names, seen, fraction);
            let case = match office {
                2 => "a split by an office above 1",
                _ if seen == edge => "a split of its own",
                _ => "a split of the other's",
            };
            self.counts.add("offices", case);
            if office > 1 {
                found.numbers = vec![1];
            }
            let by_office = format!("{name} {office} {edge} 0x{:x}", bits(fraction));
            let rows = [
                row.clone(),
                (format!("split_for {by_office}"), found.numbers),
            ];
            self.answers(name, &format!("split-{number}"), &rows);
            let behind = original::read(&after, &self.names).of(&plain.offices());
            if refused {
                assert_eq!(
                    behind.numbers(),
                    plain.numbers(),
                    "a refusal alters nothing"
                );
            }
            if shown[usize::from(refused)] {
                continue;
            }
            shown[usize::from(refused)] = true;
            let what = format!("behind-{number}");
            // What the office may do leaves the same.
            let call = if office < 2 && seen == edge {
                format!("behind_for {by_office}")
            } else {
                format!("behind {call}")
            };
            self.statement(name, &what, &call, &tables(&behind));
            if !refused && asked.follow {
                self.counts.add("models", "behind a split");
                let asked = Asked {
                    name: format!("{name}-after"),
                    model: &after,
                    plain: &behind,
                    samples: asked.samples,
                    near: vec![edge, row.1[2] as usize],
                    follow: false,
                };
                self.ask(&asked, random);
            }
        }
    }
}

fn main() {
    let arguments: Vec<String> = std::env::args().skip(1).collect();
    let number = |k: usize| -> u64 {
        let word = arguments.get(k).expect("FOLDER COUNT SEED FIRST BATCH");
        word.parse().expect("a number")
    };
    let folder = &arguments[0];
    let (count, seed, first, batch) = (number(1), number(2), number(3), number(4));
    let kept: Option<Vec<usize>> = arguments
        .get(5)
        .map(|words| words.split(',').filter_map(|w| w.parse().ok()).collect());

    let mut writer = Writer {
        text: String::new(),
        counts: Counts::default(),
        names: Names::new(),
    };
    let mut done = 0;
    let mut next = first;
    while done < count {
        let Some(mut made) = made(&writer.names, Sort::Small, seed, next, kept.as_deref()) else {
            next += 1;
            assert!(
                kept.is_none() || next < first + 1000,
                "the Rust makes no such model"
            );
            continue;
        };
        writer.counts.add("shapes", &made.told[0]);
        writer.counts.add(
            "models",
            match made.told.len() {
                1 => "sound".into(),
                n => format!("{} damages", n - 1),
            },
        );
        writer.text += &format!("\n-- model {next}: {}\n", made.told.join("; "));
        let mut random = Random::new(seed, next, 102);
        let offices = [(); 2].map(|()| random.below(2) as u32);
        made.plain = made.plain.of(&offices);
        let mut random = Random::new(seed, next, 100);
        let asked = Asked {
            name: format!("model-{next}"),
            model: &made.model,
            plain: &made.plain,
            samples: random.pick(&[3, 3, 3, 3, 0, 2]),
            near: made.near.clone(),
            follow: true,
        };
        writer.ask(&asked, &mut random);
        if next % 3 == 0 {
            original::by(Version::Second, || writer.second(&made, seed, next));
        }
        done += 1;
        next += 1;
        if done % batch == 0 || done == count {
            let file = format!("{folder}/batch-{}.antt", done.div_ceil(batch));
            fs::write(&file, format!("{HEAD}{}", writer.text))
                .expect("the folder can be written to");
            writer.text.clear();
        }
    }
    for (what, cases) in &writer.counts.0 {
        let cases: Vec<String> = cases
            .iter()
            .map(|(case, n)| format!("{}: {n}", case.trim()))
            .collect();
        println!("{what}: {}", cases.join("; "));
    }
}
