//! What a run counts: comparisons on document 01's domain, and the differences outside it by class, each with its smallest input.

use std::collections::BTreeMap;

use crate::original::{Call, Said};

/// The classes of difference, by their headings in docs/DIFFERENCES.md. Which one a call falls into is decided by its input alone.
#[derive(Clone, Copy, Debug, PartialEq, Eq, PartialOrd, Ord)]
pub enum Class {
    BelowBase,
    EmptyIndex,
    RangeAtEnd,
    RangeReversed,
    IterReversed,
    BisectReversed,
    BisectOutside,
    BisectApart,
    BisectFalling,
    AccessShort,
    Limits,
}

impl Class {
    /// The class's heading in docs/DIFFERENCES.md.
    pub fn heading(self) -> &'static str {
        match self {
            Class::BelowBase => "push below the base",
            Class::EmptyIndex => "0..0 on an empty index",
            Class::RangeAtEnd => "get_range(n..n) after a base alone",
            Class::RangeReversed => "get_range reversed",
            Class::IterReversed => "iter reversed",
            Class::BisectReversed => "bisect_range_left reversed",
            Class::BisectOutside => "bisect_range_left outside its range",
            Class::BisectApart => "bisect_range_left where range and segment do not meet",
            Class::BisectFalling => "bisect_range_left on falling values",
            Class::AccessShort => "bisect where access returns less",
            Class::Limits => "more than 65,535 segments",
        }
    }
}

/// What led to a difference. Smaller ones come first.
#[derive(Clone, Debug, PartialEq, Eq, PartialOrd, Ord)]
pub struct Input {
    pub pushed: usize,
    pub sum: u128,
    pub values: Vec<u64>,
    pub minimum: u64,
    pub call: Call,
    pub block: usize,
}

impl Input {
    pub fn new(values: &[u64], minimum: u64, block: usize, call: Call) -> Self {
        let sum = values.iter().map(|&value| u128::from(value)).sum();
        Input { pushed: values.len(), sum, values: values.to_vec(), minimum, call, block }
    }
}

impl std::fmt::Display for Input {
    fn fmt(&self, f: &mut std::fmt::Formatter) -> std::fmt::Result {
        write!(f, "block {}, m {}, ", self.block, self.minimum)?;
        match &self.values[..] {
            [] => write!(f, "empty")?,
            few if few.len() <= 24 => write!(f, "push {few:?}")?,
            [first, second, ..] => write!(f, "push {} values from {first}, {second} on", self.pushed)?,
            _ => unreachable!(),
        }
        write!(f, ", {}", self.call)
    }
}

/// The calls of a class: how many, how many of them differ, and the smallest that does with what both said.
#[derive(Default)]
struct Seen {
    calls: u64,
    differ: u64,
    smallest: Option<(Input, Said, Said)>,
}

#[derive(Default)]
pub struct Tally {
    compared: u64,
    equal: u64,
    /// How often ours was not right in a class.
    wrong: u64,
    /// The smallest input at which ours was not right.
    worst: Option<(Input, Said, Said)>,
    classes: BTreeMap<Class, Seen>,
}

impl Tally {
    pub fn compared(&self) -> u64 {
        self.compared
    }

    /// How often ours was not right, on the domain and elsewhere.
    pub fn differ(&self) -> u64 {
        self.compared - self.equal + self.wrong
    }

    /// Counts a comparison with the original on the domain.
    pub fn compare(&mut self, input: impl FnOnce() -> Input, rust: &Said, ours: &Said) {
        self.compared += 1;
        if rust == ours {
            self.equal += 1;
        } else {
            keep_smaller(&mut self.worst, input(), rust, ours);
        }
    }

    /// Counts a call of a class. There the original may differ; ours must say what is right.
    pub fn outside(&mut self, class: Class, input: impl Fn() -> Input, rust: &Said, ours: &Said, right: &Said) {
        let seen = self.classes.entry(class).or_default();
        seen.calls += 1;
        if rust != ours {
            seen.differ += 1;
            keep_smaller(&mut seen.smallest, input(), rust, ours);
        }
        if ours != right {
            self.wrong += 1;
            keep_smaller(&mut self.worst, input(), right, ours);
        }
    }

    /// Prints the summary. Is every difference in a class that the document has?
    pub fn report(&self, document: &str) -> bool {
        println!("compared {}, equal {}", self.compared, self.equal);
        let mut good = self.differ() == 0;
        if let Some((input, rust, ours)) = &self.worst {
            println!("  FAILED {} times: {input}\n    right: {rust}\n    ours:  {ours}", self.differ());
        }
        for (class, Seen { calls, differ, smallest }) in &self.classes {
            println!("{}: {differ} of {calls} calls differ", class.heading());
            if let Some((input, rust, ours)) = smallest {
                println!("    {input}\n    original: {rust}\n    ours:     {ours}");
            }
            if *differ > 0 && !document.lines().any(|line| line.strip_prefix("## ") == Some(class.heading())) {
                println!("  FAILED: docs/DIFFERENCES.md has no such heading");
                good = false;
            }
        }
        good
    }
}

fn keep_smaller(kept: &mut Option<(Input, Said, Said)>, input: Input, rust: &Said, ours: &Said) {
    if kept.as_ref().is_none_or(|(smaller, ..)| input < *smaller) {
        *kept = Some((input, rust.clone(), ours.clone()));
    }
}
