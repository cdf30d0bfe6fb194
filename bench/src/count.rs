//! Instruction counts: callgrind counts what runs inside `counted`, once for each operation.

use std::fs;
use std::hint::black_box;

use crate::index::Operation;
use crate::inputs::{Input, NAMES};
use crate::times::{units, Filled};

/// How many values an input has here and in the tables.
pub const N: usize = 1_000_000;

/// How many positions and values are asked for.
const ASKED: usize = 5_000;

/// Runs each operation once, in the order of the tables.
pub fn run(engine: &str, input: usize) {
    let input = Input::new(NAMES[input], N);
    let mut filled = Filled::new(engine, &input);
    for operation in Operation::ALL {
        filled.index.empty_for(operation);
        counted(&mut filled, operation, &input);
    }
}

#[inline(never)]
fn counted(filled: &mut Filled, operation: Operation, input: &Input) {
    let asked = if operation.asks() { ASKED } else { input.values.len() };
    let answer = filled.index.round(operation, input, 0..asked, &mut filled.out);
    black_box(answer);
}

/// Instructions by engine (proved, twin), input and operation.
pub struct Counts(Vec<f64>);

impl Counts {
    /// Reads the counts, one in a line: all operations of an input, all inputs of an engine.
    pub fn read(file: &str) -> Self {
        let text = fs::read_to_string(file).unwrap();
        let counts: Vec<f64> = text.lines().map(|line| line.parse().unwrap()).collect();
        assert_eq!(counts.len(), 2 * NAMES.len() * Operation::ALL.len());
        Counts(counts)
    }

    /// The instructions of the proved code and of the twin, divided as the times are.
    pub fn of(&self, operation: Operation, input: &Input) -> [f64; 2] {
        let at = NAMES.iter().position(|&name| name == input.name).unwrap();
        [0, 1].map(|engine| {
            let i = (engine * NAMES.len() + at) * Operation::ALL.len() + operation as usize;
            self.0[i] / units(operation, input, ASKED)
        })
    }
}
