//! What was compared, and what differs.

use std::collections::BTreeMap;
use std::process::ExitCode;

/// How many differences of a sort are shown.
const SHOWN: usize = 3;

#[derive(Default)]
pub struct Tally {
    pub models: usize,
    /// How often each case of a call was met.
    met: BTreeMap<&'static str, BTreeMap<String, usize>>,
    compared: BTreeMap<&'static str, usize>,
    listed: BTreeMap<&'static str, usize>,
    differ: BTreeMap<String, usize>,
    differing: usize,
    /// The model at hand, and whether a difference was seen in it.
    case: String,
    differs: bool,
    /// Shows nothing.
    quiet: bool,
}

impl Tally {
    pub fn quiet() -> Self {
        Self {
            quiet: true,
            ..Self::default()
        }
    }

    /// How many models differ.
    pub fn differing(&self) -> usize {
        self.differing
    }

    pub fn begin(&mut self, case: String) {
        self.models += 1;
        self.case = case;
        self.differs = false;
    }

    /// The model at hand in another form.
    pub fn again(&mut self, told: &str) {
        self.case = format!("{}; {told}", self.case);
    }

    pub fn met(&mut self, what: &'static str, case: impl ToString) {
        *self
            .met
            .entry(what)
            .or_default()
            .entry(case.to_string())
            .or_default() += 1;
    }

    pub fn compared(&mut self, what: &'static str, n: usize) {
        *self.compared.entry(what).or_default() += n;
    }

    /// A difference from the Rust that docs/DIFFERENCES.md lists.
    pub fn listed(&mut self, what: &'static str) {
        *self.listed.entry(what).or_default() += 1;
    }

    pub fn differs(&mut self, what: &str, detail: impl FnOnce() -> String) {
        let count = self.differ.entry(what.into()).or_default();
        *count += 1;
        if *count <= SHOWN && !self.quiet {
            println!("differs: {what}: {}\n    {}", detail(), self.case);
        }
        if !self.differs {
            self.differing += 1;
            self.differs = true;
        }
    }

    /// Two answers of which each is compared as a whole.
    pub fn same<T: PartialEq + std::fmt::Debug>(
        &mut self,
        what: &'static str,
        rust: &T,
        ours: &T,
        asked: impl FnOnce() -> String,
    ) {
        self.compared(what, 1);
        if rust != ours {
            self.differs(what, || {
                format!("{}: expected {rust:?}, ours {ours:?}", asked())
            });
        }
    }

    /// Prints all counts; the status is 1 where anything differs.
    pub fn end(self) -> ExitCode {
        self.end_of("models")
    }

    /// The same, of other things than models.
    pub fn end_of(self, things: &str) -> ExitCode {
        for (what, cases) in &self.met {
            let cases: Vec<_> = cases.iter().map(|(c, n)| format!("{c} {n}")).collect();
            println!("{what}: {}", cases.join(", "));
        }
        for (what, n) in &self.compared {
            let differ = self.differ.get(*what).unwrap_or(&0);
            println!("compared: {what} {n}, {differ} differ");
        }
        for (what, n) in &self.listed {
            println!("listed: {what} {n}");
        }
        println!("{} {things}, {} differ", self.models, self.differing);
        if self.differing == 0 {
            ExitCode::SUCCESS
        } else {
            ExitCode::FAILURE
        }
    }
}
