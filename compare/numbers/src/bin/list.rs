//! Writes a fixed sample of rows with the Rust's answers, for a program that replays them without
//! the Rust. One row to a line, 19 fields of 16 hexadecimal digits: the operation's number plus
//! 65536 times the answer's number, twelve operands, six values; each NaN as 7ff8000000000000.

use std::io::{self, BufWriter, Write};

use numbers::{By, OPERATIONS, Operation, Row, told};

const ROWS: usize = 60;
const DRAWN: usize = 50_000;
const SEED: u64 = 1;

/// Each sort of answer gets its share of the rows, and the common ones what is then left.
fn sample(operation: &Operation, op: u32) -> Vec<Row> {
    let share = ROWS / operation.sorts().len();
    let mut met = vec![0; operation.sorts().len()];
    let (mut kept, mut rest) = (Vec::new(), Vec::new());
    let answered_by_rust = |row: &Row| row.by == By::Rust;
    for row in operation
        .rows(op, SEED)
        .take(DRAWN)
        .filter(answered_by_rust)
    {
        let sort = operation.sort(&row.answer);
        met[sort] += 1;
        if met[sort] <= share {
            kept.push(row);
        } else if rest.len() < ROWS {
            rest.push(row);
        }
    }
    rest.truncate(ROWS - kept.len());
    kept.append(&mut rest);
    for number in operation.numbers {
        assert!(
            kept.iter().any(|row| row.answer.number == *number),
            "no row of {} answers {number}",
            operation.name
        );
    }
    kept
}

fn main() -> io::Result<()> {
    let mut out = BufWriter::new(io::stdout().lock());
    for (op, operation) in (0..).zip(&OPERATIONS) {
        for row in sample(operation, op) {
            write!(out, "{:016x}", op + row.answer.number * 65536)?;
            for x in row.operands.iter().chain(&row.answer.values) {
                write!(out, " {:016x}", told(*x))?;
            }
            writeln!(out)?;
        }
    }
    out.flush()
}
