//! Timing: processor time of this thread, the best of several rounds, the engines taking turns within each round.

use std::mem;
use std::ops::Range;

use crate::index::{Index, Operation};
use crate::inputs::{Input, QUESTIONS};
use crate::original::{Light, Locked};
use crate::plain::Plain;
use crate::proved::Proved;
use crate::twin::Twin;

/// The engines by name, in the order of the tables.
pub const ENGINES: [&str; 5] = ["proved", "twin", "original, light", "original, locked", "plain"];

/// The places of the others beside the proved code.
pub const TWIN: usize = 1;
pub const LIGHT: usize = 2;
pub const LOCKED: usize = 3;
pub const PLAIN: usize = 4;

/// How many rounds each engine is timed for.
pub const ROUNDS: usize = 21;

/// Into how many parts a round is cut: a short part is less often disturbed.
const PARTS: usize = 20;

/// The least that a part takes of questions or values, so that reading the clock does not count.
const LEAST: usize = 1_000;

/// How many questions are asked where each takes milliseconds.
const FEW: usize = 10;

/// One engine, filled with an input's values, and the room that it writes ranges into.
pub struct Filled {
    pub index: Box<dyn Index>,
    pub out: Vec<u64>,
}

impl Filled {
    /// The engine of this name over this input.
    pub fn new(engine: &str, input: &Input) -> Self {
        let n = input.values.len();
        let mut index: Box<dyn Index> = match engine {
            "proved" => Box::new(Proved::new(n)),
            "twin" => Box::new(Twin::new(n)),
            "original, light" => Box::new(Light::new(&input.values)),
            "original, locked" => Box::new(Locked::new(&input.values)),
            "plain" => Box::new(Plain(Vec::new())),
            _ => panic!("no engine {engine}"),
        };
        let mut out = vec![0; n];
        index.round(Operation::Push, input, 0..n, &mut out);
        Filled { index, out }
    }

    /// A part of a round of an operation: its nanoseconds and its answers mixed, or none where the engine lacks it.
    fn round(&mut self, operation: Operation, input: &Input, asked: Range<usize>) -> Option<(f64, u64)> {
        if asked.start == 0 {
            self.index.empty_for(operation);
        }
        let before = processor_time();
        let answers = self.index.round(operation, input, asked, &mut self.out)?;
        let time = processor_time() - before;
        if operation == Operation::RangeOfAll {
            assert!(self.out == input.values, "{}: another range of all", input.name);
        }
        Some((time, answers))
    }
}

/// The best times of the engines, in nanoseconds for one call or value, in microseconds for an audit; none where an engine lacks the operation.
pub type Times = [Option<f64>; ENGINES.len()];

/// Measures an operation. Every part of every round must give the plain vector's answers, where that has the operation.
pub fn measure(operation: Operation, input: &Input, engines: &mut [Filled; ENGINES.len()]) -> Times {
    let parts = ENGINES.map(|engine| parts(operation, input, engine));
    let right = parts.each_ref().map(|parts| answers(&mut engines[PLAIN], operation, input, parts));
    let mut best = parts.each_ref().map(|parts| vec![f64::INFINITY; parts.len()]);
    for round in 0..ROUNDS {
        for turn in 0..ENGINES.len() {
            // Every other round goes backwards, so that each of two neighbours comes second as often.
            let engine = if round % 2 == 0 { turn } else { ENGINES.len() - 1 - turn };
            lend(engines, engine);
            // A first round warms the caches, alike for each engine.
            answers(&mut engines[engine], operation, input, &parts[engine]);
            for (part, asked) in parts[engine].iter().enumerate() {
                let Some((time, answers)) = engines[engine].round(operation, input, asked.clone()) else {
                    continue;
                };
                let right = right[engine][part].unwrap_or(answers);
                assert!(answers == right, "{}: {} answers otherwise on {operation:?}", input.name, ENGINES[engine]);
                best[engine][part] = best[engine][part].min(time);
            }
        }
    }
    std::array::from_fn(|engine| {
        let asked = parts[engine].iter().map(Range::len).sum();
        let time: f64 = best[engine].iter().sum();
        time.is_finite().then_some(time / units(operation, input, asked))
    })
}

/// The parts of a round: of its questions or its values, unless it is one call.
fn parts(operation: Operation, input: &Input, engine: &str) -> Vec<Range<usize>> {
    let asked = match operation {
        // The original reads the whole segment for each search: it is asked the first few questions alone.
        Operation::Bisect if engine.starts_with("original") && input.name == "one long segment" => FEW,
        operation if operation.asks() => QUESTIONS,
        _ => input.values.len(),
    };
    let parts = if operation.whole() { 1 } else { (asked / LEAST).clamp(1, PARTS) };
    (0..parts).map(|part| part * asked / parts..(part + 1) * asked / parts).collect()
}

/// The answers of each part.
fn answers(engine: &mut Filled, operation: Operation, input: &Input, parts: &[Range<usize>]) -> Vec<Option<u64>> {
    let answer = |asked: &Range<usize>| engine.round(operation, input, asked.clone()).map(|(_, answers)| answers);
    parts.iter().map(answer).collect()
}

/// What a round is divided by: its calls, or the values that it handles.
pub fn units(operation: Operation, input: &Input, asked: usize) -> f64 {
    match operation {
        Operation::Audit => 1000.0,
        operation if operation.asks() => asked as f64,
        _ => input.values.len() as f64,
    }
}

/// Hands the proved code's tables over to the twin for its round, and back: both work on the same memory.
fn lend(engines: &mut [Filled; ENGINES.len()], engine: usize) {
    let [proved, twin, ..] = engines;
    if engine <= TWIN {
        mem::swap(proved.index.lent().unwrap(), twin.index.lent().unwrap());
        mem::swap(&mut proved.out, &mut twin.out);
    }
}

/// The nanoseconds that this thread has run: what other programs take does not count.
fn processor_time() -> f64 {
    #[repr(C)]
    struct Time {
        seconds: i64,
        nanoseconds: i64,
    }
    extern "C" {
        fn clock_gettime(clock: i32, time: *mut Time) -> i32;
    }
    const THREAD: i32 = 3;
    let mut time = Time { seconds: 0, nanoseconds: 0 };
    let status = unsafe { clock_gettime(THREAD, &mut time) };
    assert_eq!(status, 0);
    time.seconds as f64 * 1e9 + time.nanoseconds as f64
}
