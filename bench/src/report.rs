//! The tables of docs/BENCHMARKS.md.

use crate::count::{Counts, N};
use crate::index::Operation::{self, *};
use crate::inputs::{Input, NAMES};
use crate::times::{measure, Filled, Times, ENGINES, LIGHT, LOCKED, PLAIN, ROUNDS, TWIN};

/// What was measured of one operation on one input.
struct Row {
    operation: Operation,
    input: &'static str,
    times: Times,
    counts: [f64; 2],
}

impl Row {
    /// The proved code's time as a part of another engine's.
    fn of(&self, engine: usize) -> Option<f64> {
        Some(self.times[0]? / self.times[engine]?)
    }

    /// The proved code's instructions as a part of the twin's.
    fn counted(&self) -> Option<f64> {
        Some(self.counts[0] / self.counts[1])
    }
}

/// Measures all and prints the tables.
pub fn write(counts: &Counts) {
    let mut rows = Vec::new();
    let mut sizes = Vec::new();
    for name in NAMES {
        let input = Input::new(name, N);
        let mut engines = ENGINES.map(|engine| Filled::new(engine, &input));
        for operation in Operation::ALL {
            let times = measure(operation, &input, &mut engines);
            rows.push(Row { operation, input: name, times, counts: counts.of(operation, &input) });
        }
        let bytes = engines.each_ref().map(|engine| engine.index.size());
        assert!(bytes[..PLAIN].iter().all(|&size| size == bytes[0]), "{name}: sizes differ: {bytes:?}");
        sizes.push((name, bytes.map(|size| size as f64 / input.values.len() as f64)));
    }
    rows.sort_by_key(|row| row.operation as usize);
    goals(&rows);
    times(&rows);
    instructions(&rows);
    bytes(&sizes);
    against_n();
}

/// A goal: an operation, the inputs, and at most how much of another engine's time it takes there.
type Goal = (Operation, &'static [&'static str], f64);

/// The proved code's time or instructions as a part of another engine's.
type Ratio = fn(&Row) -> Option<f64>;

const BESIDE_TWIN: [Goal; 6] = [
    (Push, &NAMES, 1.0),
    (Get, &NAMES, 1.0),
    (Bisect, &NAMES, 1.0),
    (Step, &NAMES, 1.0),
    (RangeOfAll, &[NAMES[0], NAMES[1], NAMES[2]], 0.25),
    (RangeOfAll, &[NAMES[3]], 0.8),
];

const BESIDE_ORIGINAL: [Goal; 8] = [
    (Push, &NAMES, 0.5),
    (Get, &NAMES, 0.5),
    (Bisect, &NAMES, 0.5),
    (Bisect, &[NAMES[2]], 0.01),
    (RangeOfAll, &NAMES, 0.5),
    (RangeOf16, &NAMES, 0.5),
    (Step, &NAMES, 0.5),
    (Walk, &NAMES, 0.5),
];

fn goals(rows: &[Row]) {
    println!("## Goals\n");
    println!("The proved code's time as a part of the twin's, input by input, and its instructions as a part of the twin's.\n");
    println!("| goal | on | time | instructions | by time | by instructions |");
    println!("|---|---|---|---|---|---|");
    for goal in BESIDE_TWIN {
        verdicts(rows, goal, "twin", [|row| row.of(TWIN), Row::counted]);
    }
    println!("\nThe proved code's time as a part of the original's, on each ground.\n");
    println!("| goal | on | time, light | time, locked | on light ground | on locked ground |");
    println!("|---|---|---|---|---|---|");
    for goal in BESIDE_ORIGINAL {
        verdicts(rows, goal, "original", [|row| row.of(LIGHT), |row| row.of(LOCKED)]);
    }
    println!("| bytes an entry equal to the original's | all four | | | met (checked) | met (checked) |\n");
}

/// One goal beside another engine, judged by two ratios.
fn verdicts(rows: &[Row], (operation, inputs, most): Goal, engine: &str, by: [Ratio; 2]) {
    let rows = || rows.iter().filter(|row| row.operation == operation && inputs.contains(&row.input));
    let [one, other] = by.map(|ratio| rows().map(|row| ratio(row).unwrap()).collect::<Vec<f64>>());
    let on = if inputs.len() == NAMES.len() { "all four".into() } else { inputs.join(", ") };
    println!(
        "| {} at most {most:?} of the {engine}'s | {on} | {} | {} | {} | {} |",
        operation.name(),
        ratios(&one),
        ratios(&other),
        verdict(&one, most),
        verdict(&other, most)
    );
}

fn ratios(ratios: &[f64]) -> String {
    ratios.iter().map(|&ratio| part(Some(ratio))).collect::<Vec<_>>().join(", ")
}

/// Whether all ratios are at most the goal's.
fn verdict(ratios: &[f64], most: f64) -> String {
    match ratios.iter().filter(|&&ratio| ratio > most).count() {
        0 => "met".into(),
        missed => format!("**missed** on {missed} of {}", ratios.len()),
    }
}

/// A ratio; small ones with more digits.
fn part(ratio: Option<f64>) -> String {
    match ratio {
        None => "".into(),
        Some(ratio) if ratio < 0.01 => format!("{ratio:.5}"),
        Some(ratio) => format!("{ratio:.2}"),
    }
}

fn time(time: Option<f64>) -> String {
    time.map_or("".into(), |time| format!("{time:.1}"))
}

fn times(rows: &[Row]) {
    println!("## Times\n");
    println!("Nanoseconds (the audit: microseconds), the best of {ROUNDS} rounds.\n");
    println!("| operation | input | {} | proved / twin | proved / light | proved / locked |", ENGINES.join(" | "));
    println!("|---|---|---|---|---|---|---|---|---|---|");
    for row in rows {
        let times = row.times.map(time).join(" | ");
        let parts = [TWIN, LIGHT, LOCKED].map(|engine| part(row.of(engine))).join(" | ");
        println!("| {} | {} | {times} | {parts} |", row.operation.name(), row.input);
    }
    println!();
}

fn instructions(rows: &[Row]) {
    println!("## Instructions\n");
    println!("Counted by callgrind, the call included; they hardly differ between runs.\n");
    println!("| operation | input | proved | twin | proved / twin |");
    println!("|---|---|---|---|---|");
    for row in rows {
        let (name, [proved, twin]) = (row.operation.name().replace("microseconds", "thousands"), row.counts);
        println!("| {name} | {} | {proved:.1} | {twin:.1} | {} |", row.input, part(row.counted()));
    }
    println!();
}

fn bytes(sizes: &[(&str, [f64; ENGINES.len()])]) {
    println!("## Bytes an entry\n");
    println!("| input | {} |", ENGINES.join(" | "));
    println!("|---|---|---|---|---|---|");
    for (input, bytes) in sizes {
        println!("| {input} | {} |", bytes.map(|bytes| format!("{bytes:.2}")).join(" | "));
    }
    println!();
}

fn against_n() {
    println!("## Cost against n\n");
    println!("Packet offsets, nanoseconds, {}.\n", ENGINES.join(" / "));
    println!("| n | push, a value | get, at random | bisect_left, at random |");
    println!("|---|---|---|---|");
    for (n, name) in [(1_000, "1,000"), (10_000, "10,000"), (100_000, "100,000"), (1_000_000, "1,000,000")] {
        let input = Input::new(NAMES[0], n);
        let mut engines = ENGINES.map(|engine| Filled::new(engine, &input));
        let times = [Push, Get, Bisect].map(|operation| measure(operation, &input, &mut engines).map(time).join(" / "));
        println!("| {name} | {} |", times.join(" | "));
    }
}
