//! Compares the original compact index, document 01's model and the proved code. See README.md.

#[cfg(feature = "border")]
mod border;
mod chance;
mod damaged;
mod engine;
mod lists;
mod model;
mod original;
mod pair;
mod pinned;
mod record;
mod shams;
mod tally;

use std::process::ExitCode;
use std::{env, fs};

use chance::Chance;
use damaged::Damaged;
use engine::Engine;
use pinned::Pinned;
use tally::Tally;

/// What is compared with the original, and on damaged tables with the model.
#[cfg(feature = "border")]
const ENGINE: (&str, &dyn Engine) = ("the proved code", &border::Border);
#[cfg(not(feature = "border"))]
const ENGINE: (&str, &dyn Engine) = ("the model", &model::Model);

/// The least that a run must do.
const COMPARISONS: u64 = 2_000_000;
const DAMAGED_CASES: u64 = 1_000_000;

/// `oracle SEED DOCUMENT` runs all; `oracle --record FILE` writes the original's answers; `oracle --shams` tries wrong programs.
fn main() -> ExitCode {
    original::keep_panics_quiet();
    let words: Vec<String> = env::args().skip(1).collect();
    let good = match words.iter().map(String::as_str).collect::<Vec<_>>()[..] {
        ["--record", file] => record(file),
        ["--shams"] => shams::run(),
        [seed, document] => run(seed.parse().expect("a seed"), &fs::read_to_string(document).expect("the differences")),
        _ => panic!("usage: oracle SEED DOCUMENT | oracle --record FILE | oracle --shams"),
    };
    if good {
        ExitCode::SUCCESS
    } else {
        ExitCode::FAILURE
    }
}

/// The whole run. The damaged cases do not look at the original, so they run in one build alone.
fn run(seed: u64, document: &str) -> bool {
    let (name, engine) = ENGINE;
    let checks = original::overflow_checks();
    println!("== {name}; the original with overflow checks {}; seed {seed}", if checks { "on" } else { "off" });
    let mut pinned = Pinned::default();
    pinned.run(engine);
    let mut good = pinned.report();
    let mut tally = Tally::default();
    lists::run(engine, &mut Chance(seed), &mut tally);
    good &= tally.report(document) && tally.compared() >= COMPARISONS;
    if checks {
        let mut damaged = Damaged::default();
        damaged.run(engine, DAMAGED_CASES, &mut Chance(seed));
        good &= damaged.report();
    }
    good
}

/// Writes the original's answers into a file.
fn record(file: &str) -> bool {
    let mut bytes = Vec::new();
    let count = record::write(&mut bytes).expect("memory");
    println!("{count} records, {} bytes", bytes.len());
    fs::write(file, bytes).is_ok()
}
