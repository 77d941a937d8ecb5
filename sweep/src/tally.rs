//! Cases tried and cases wrong, and the lines that say so.
use std::fmt::Arguments;

/// How many wrong cases are printed; all are counted.
const SHOWN: u64 = 20;

#[derive(Default)]
pub struct Tally {
    cases: u64,
    wrong: u64,
    lines: Vec<String>,
}

impl Tally {
    /// One wrong case.
    pub fn wrong(&mut self, what: Arguments) {
        self.wrong += 1;
        if self.wrong <= SHOWN {
            eprintln!("WRONG: {what}");
        }
    }

    /// A case that is wrong unless it holds.
    pub fn expect(&mut self, holds: bool, what: Arguments) {
        if !holds {
            self.wrong(what);
        }
    }

    /// The line of a group.
    pub fn group(&mut self, name: &str, cases: u64) {
        self.line(format_args!("{name}: {cases} cases"), cases);
    }

    /// A line of its own for some cases.
    pub fn line(&mut self, text: Arguments, cases: u64) {
        self.cases += cases;
        self.lines.push(text.to_string());
    }

    /// The cases and lines of a part that ran beside this one.
    pub fn add(&mut self, other: Tally) {
        self.cases += other.cases;
        self.wrong += other.wrong;
        self.lines.extend(other.lines);
    }

    /// All lines and the last one, and whether no case was wrong.
    pub fn end(&self) -> bool {
        for line in &self.lines {
            println!("{line}");
        }
        println!("sweep: {} cases, {} wrong", self.cases, self.wrong);
        self.wrong == 0
    }
}
