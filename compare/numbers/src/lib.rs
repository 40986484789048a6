//! Rows of operands with what the Rust answers to them, for each operation that the probe has.

mod operands;
mod original;
pub mod random;

use gensolid_math::exact::published;
pub use original::OPERATIONS;
use random::Random;

/// A number (a truth, a sign, a refusal, or else 0) and up to six floats; those not used are 0.
#[derive(Clone, Copy)]
pub struct Answer {
    pub number: u32,
    pub values: [f64; 6],
}

/// Why a row's answer is the right one.
#[derive(Clone, Copy, PartialEq)]
pub enum By {
    /// The Rust gives it.
    Rust,
    /// 01 gives it, to carriers that the Rust does not have.
    Rule,
    /// A listed departure: the Rust refuses with 4, for its hypot distance alone.
    Distance,
    /// A listed departure: the sign is decided, and the Rust's hypot distance decides otherwise.
    Verdict,
}

pub struct Row {
    pub operands: [f64; 12],
    pub answer: Answer,
    pub by: By,
    /// What the Rust as published answers, where W-205 changes it.
    pub was: Option<Answer>,
}

/// What an operation's number means.
#[derive(Clone, Copy, PartialEq)]
pub enum Kind {
    Values,
    Truth,
    Sign,
    Refusal,
}

pub struct Operation {
    pub name: &'static str,
    /// How many operands it reads, from the first on. One that may refuse reads the last too, the
    /// carrier's kind.
    pub reads: usize,
    pub kind: Kind,
    /// The numbers that the Rust gives, each of which a sample must show.
    pub numbers: &'static [u32],
    make: fn(&mut Random) -> Row,
}

impl Operation {
    /// Rows of one operation do not depend on what the others draw.
    pub fn rows(&self, op: u32, seed: u64) -> impl Iterator<Item = Row> + use<> {
        let mut random = Random::new(seed.wrapping_add(u64::from(op) << 32));
        let make = self.make;
        std::iter::repeat_with(move || {
            let was = published(|| make(&mut random.clone()));
            let mut row = make(&mut random);
            assert_eq!(was.operands.map(f64::to_bits), row.operands.map(f64::to_bits));
            row.was = (!same(&was.answer, &row.answer)).then_some(was.answer);
            row
        })
    }

    /// The sorts of answer that a summary counts, in the order of `sort`.
    pub fn sorts(&self) -> &'static [&'static str] {
        match self.kind {
            Kind::Values => &["finite", "infinite", "NaN"],
            Kind::Truth => &["no", "yes"],
            Kind::Sign => &["negative", "zero", "positive", "unresolved"],
            Kind::Refusal => &[
                "answered",
                "refused 1",
                "refused 2",
                "refused 4",
                "refused 7",
            ],
        }
    }

    pub fn sort(&self, answer: &Answer) -> usize {
        match (self.kind, answer.number) {
            (Kind::Values, _) if answer.values.iter().any(|v| v.is_nan()) => 2,
            (Kind::Values, _) if answer.values.iter().any(|v| v.is_infinite()) => 1,
            (Kind::Values, _) => 0,
            (Kind::Refusal, 4) => 3,
            (Kind::Refusal, 7) => 4,
            (_, number) => number as usize,
        }
    }
}

pub fn same(a: &Answer, b: &Answer) -> bool {
    a.number == b.number && a.values.map(told) == b.values.map(told)
}

/// The bits by which floats are told apart: all NaNs count as one.
pub fn told(x: f64) -> u64 {
    if x.is_nan() {
        0x7ff8_0000_0000_0000
    } else {
        x.to_bits()
    }
}
