//! W-211: "From version 2 of the drawing practice the effective tolerance is the larger of the record's own and the session's. Version 1 keeps document
//! 01's rule". The published `effective_tolerance` is version 1's and is called unchanged; `by` says which version a model goes by that is asked about.

use std::cell::Cell;

use crate::tolerance::{self, Precision, Tolerance};

/// The version of the drawing practice. The Rust's `Model` names none, so that it stands around what is asked of one.
#[derive(Clone, Copy, Debug, Default, PartialEq, Eq)]
pub enum Version {
    #[default]
    First = 1,
    Second = 2,
}

/// Which of the record's own tolerance and the session's is in effect; the last is no version's, for wrong stations.
#[derive(Clone, Copy, Debug, PartialEq, Eq)]
pub enum Rule {
    Published,
    Larger,
    Smaller,
}

thread_local! {
    static VERSION: Cell<Version> = const { Cell::new(Version::First) };
    static RULE: Cell<Rule> = const { Cell::new(Rule::Published) };
}

/// What is asked, of a model of this version.
pub fn by<T>(version: Version, ask: impl FnOnce() -> T) -> T {
    let before = VERSION.replace(version);
    let rule = match version {
        Version::First => Rule::Published,
        Version::Second => Rule::Larger,
    };
    let answer = ruled(rule, ask);
    VERSION.set(before);
    answer
}

/// What is asked, by this rule, whatever the version is.
pub fn ruled<T>(rule: Rule, ask: impl FnOnce() -> T) -> T {
    let before = RULE.replace(rule);
    let answer = ask();
    RULE.set(before);
    answer
}

/// The version of what is asked about.
pub fn version() -> Version {
    VERSION.get()
}

/// The session's tolerance as one of its own, which the Rust takes at every precision.
fn session(precision: &Precision) -> Tolerance {
    Tolerance::new(precision.default_local(), precision).expect("the session's is a tolerance")
}

pub fn effective_tolerance(local: Option<Tolerance>, precision: &Precision) -> f64 {
    match (RULE.get(), local) {
        (Rule::Larger, Some(own)) => own.max(session(precision)).value(),
        (Rule::Smaller, Some(own)) => own.value().min(precision.default_local()),
        _ => tolerance::effective_tolerance(local, precision),
    }
}
