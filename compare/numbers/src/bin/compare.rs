//! Asks the Rust and the static library the same, and compares the answers bit for bit:
//! `compare [rows of each operation] [seed]`. The exit status is 1 where any differ.

use std::env;
use std::process::ExitCode;

use numbers::random::{Random, Style};
use numbers::{Answer, By, Kind, OPERATIONS, Operation, Row, same};

#[link(name = "replay_probe", kind = "static")]
unsafe extern "C" {
    fn brunskerl_probe(op: u32, x: *const [f64; 12], out: *mut [f64; 6]) -> u32;
}

/// How many differing rows of an operation are shown.
const SHOWN: usize = 3;

/// The number of a sign that is not decided.
const UNRESOLVED: u32 = 3;

/// What the probe answers to a number that is no operation's.
const NO_OPERATION: u32 = u32::MAX;

fn ours(op: u32, operands: &[f64; 12]) -> Answer {
    // No answer has this bit pattern, so that a value left unwritten is seen.
    let mut values = [f64::from_bits(0x7fe1_2345_6789_abcd); 6];
    // SAFETY: the probe reads the twelve floats, writes the six and keeps neither address.
    let number = unsafe { brunskerl_probe(op, operands, &mut values) };
    Answer { number, values }
}

fn hex(floats: &[f64]) -> String {
    let bits: Vec<_> = floats
        .iter()
        .map(|x| format!("{:016x}", x.to_bits()))
        .collect();
    bits.join(" ")
}

fn show(what: &str, op: u32, row: &Row, given: &Answer) {
    let Operation { name, reads, .. } = OPERATIONS[op as usize];
    println!("    {what}: operation {op}, {name}, which reads {reads} operands");
    println!("      operands {}", hex(&row.operands));
    for (who, answer) in [("expected", &row.answer), ("ours    ", given)] {
        println!(
            "      {who} number {} values {}",
            answer.number,
            hex(&answer.values)
        );
    }
}

#[derive(Default)]
struct Tally {
    rows: u64,
    differ: u64,
    listed: u64,
    by_rule: u64,
    /// Where W-205 changes the published answer; and where a sign that was decided is another now.
    changed: u64,
    turned: u64,
}

/// Operands that an operation does not read are to have no effect.
fn fill_unread(operation: &Operation, operands: &mut [f64; 12], noise: &mut Random) {
    let end = if operation.kind == Kind::Refusal {
        11
    } else {
        12
    };
    for x in &mut operands[operation.reads..end] {
        *x = noise.float(Style::Mixed);
    }
}

fn compare(op: u32, rows: usize, seed: u64) -> Tally {
    let operation = &OPERATIONS[op as usize];
    let mut noise = Random::new(!seed);
    let mut tally = Tally::default();
    let mut sorts = vec![0u64; operation.sorts().len()];
    let mut examples = Vec::new();
    for mut row in operation.rows(op, seed).take(rows) {
        fill_unread(operation, &mut row.operands, &mut noise);
        let given = ours(op, &row.operands);
        tally.rows += 1;
        sorts[operation.sort(&row.answer)] += 1;
        if let Some(was) = row.was {
            tally.changed += 1;
            tally.turned += u64::from(operation.kind == Kind::Sign && was.number != UNRESOLVED);
        }
        if !same(&row.answer, &given) {
            tally.differ += 1;
            if tally.differ <= SHOWN as u64 {
                examples.push(("differs", row, given));
            }
            continue;
        }
        match row.by {
            By::Rust => {}
            By::Rule => tally.by_rule += 1,
            By::Distance | By::Verdict => {
                tally.listed += 1;
                if tally.listed == 1 {
                    let what = if row.by == By::Distance {
                        "listed: the Rust refuses with 4, for its hypot distance alone"
                    } else {
                        "listed: the Rust's hypot distance decides otherwise"
                    };
                    examples.push((what, row, given));
                }
            }
        }
    }
    let met: Vec<_> = operation
        .sorts()
        .iter()
        .zip(&sorts)
        .map(|(name, count)| format!("{name} {count}"))
        .collect();
    let by_rule = match tally.by_rule {
        0 => String::new(),
        rows => format!(" ({rows} by 01's rule)"),
    };
    let changed = match tally.changed {
        0 => String::new(),
        rows => format!("; {rows} changed by W-205, {} decided signs turned", tally.turned),
    };
    println!(
        "{op:2} {:19} {} rows: {}{by_rule}; {} differ, {} listed{changed}",
        operation.name,
        tally.rows,
        met.join(", "),
        tally.differ,
        tally.listed
    );
    for (what, row, given) in &examples {
        show(what, op, row, given);
    }
    tally
}

/// The numbers that are no operation's get one answer.
fn no_operation(noise: &mut Random) -> Tally {
    let mut tally = Tally::default();
    let expected = Answer {
        number: NO_OPERATION,
        values: [0.0; 6],
    };
    for op in [OPERATIONS.len() as u32, 36, 255, 65536, 1 << 31, u32::MAX] {
        let operands = [(); 12].map(|()| noise.float(Style::Mixed));
        let given = ours(op, &operands);
        tally.rows += 1;
        if !same(&expected, &given) {
            tally.differ += 1;
            println!(
                "    differs: {op} is no operation, ours number {}",
                given.number
            );
        }
    }
    println!(
        "-- no operation        {} rows; {} differ",
        tally.rows, tally.differ
    );
    tally
}

fn main() -> ExitCode {
    let arguments: Result<Vec<u64>, _> = env::args().skip(1).map(|a| a.parse()).collect();
    let (rows, seed) = match arguments.as_deref() {
        Ok([]) => (200_000, 1),
        Ok([rows]) => (*rows, 1),
        Ok([rows, seed]) => (*rows, *seed),
        _ => {
            eprintln!("usage: compare [rows of each operation] [seed]");
            return ExitCode::from(2);
        }
    };
    println!("{rows} rows of each operation, seed {seed}");
    let mut total = no_operation(&mut Random::new(!seed));
    for op in 0..OPERATIONS.len() as u32 {
        let tally = compare(op, rows as usize, seed);
        total.rows += tally.rows;
        total.differ += tally.differ;
        total.listed += tally.listed;
        total.by_rule += tally.by_rule;
        total.changed += tally.changed;
        total.turned += tally.turned;
    }
    println!(
        "{} rows held to 01's rule, since the Rust has no such carrier",
        total.by_rule
    );
    println!(
        "{} rows compared, {} differ, {} by listed departures",
        total.rows, total.differ, total.listed
    );
    println!(
        "{} answers changed by W-205, {} decided signs turned",
        total.changed, total.turned
    );
    if total.differ + total.turned == 0 {
        ExitCode::SUCCESS
    } else {
        ExitCode::FAILURE
    }
}
