//! What is measured of every engine, and the loops that measure it.

use std::ops::Range;

use crate::inputs::Input;
use crate::proved::Lent;

/// What is measured.
#[derive(Clone, Copy, PartialEq, Eq, Debug)]
pub enum Operation {
    Push,
    Get,
    Bisect,
    RangeOfAll,
    RangeOf16,
    Step,
    Walk,
    Audit,
}

impl Operation {
    pub const ALL: [Operation; 8] = [
        Operation::Push,
        Operation::Get,
        Operation::Bisect,
        Operation::RangeOfAll,
        Operation::RangeOf16,
        Operation::Step,
        Operation::Walk,
        Operation::Audit,
    ];

    /// Whether a round asks questions, each a call.
    pub fn asks(self) -> bool {
        matches!(self, Operation::Get | Operation::Bisect | Operation::RangeOf16)
    }

    /// Whether a round is one call.
    pub fn whole(self) -> bool {
        matches!(self, Operation::RangeOfAll | Operation::Audit)
    }

    /// The operation as the tables name it.
    pub fn name(self) -> &'static str {
        match self {
            Operation::Push => "push, a value",
            Operation::Get => "get, at random",
            Operation::Bisect => "bisect_left, at random",
            Operation::RangeOfAll => "get_range of all, a value",
            Operation::RangeOf16 => "get_range of 16, a call",
            Operation::Step => "a step",
            Operation::Walk => "a walk over all, a value",
            Operation::Audit => "audit, in microseconds",
        }
    }
}

/// An index to measure. A refusal panics: no question here is refused.
pub trait Engine {
    /// Empties the index for a round of pushes. Not timed.
    fn empty(&mut self);
    fn push(&mut self, value: u64) -> u64;
    /// How many bytes the index takes.
    fn size(&self) -> u64;
    /// The index for reading, made once for a round.
    fn reader(&mut self) -> impl Reader;
    /// The lent tables, where the engine works on such.
    fn lent(&mut self) -> Option<&mut Lent> {
        None
    }
}

/// What reads an index.
pub trait Reader {
    fn get(&mut self, position: u64) -> u64;
    fn bisect_left(&mut self, value: u64) -> u64;
    /// The values at a..b, in `out` from its first entry on; `out` has room for all values.
    fn get_range(&mut self, a: u64, b: u64, out: &mut Vec<u64>);
    /// The values at a..b in turn, mixed.
    fn walk(&mut self, a: u64, b: u64) -> u64;
    /// The same by single steps, where the walk is something else.
    fn steps(&mut self, a: u64, b: u64) -> u64 {
        self.walk(a, b)
    }
    /// Whether the tables are well formed, where the engine has an audit.
    fn audit(&mut self) -> Option<bool> {
        None
    }
}

/// An engine of any kind.
pub trait Index {
    /// Empties the index if the operation is a round of pushes.
    fn empty_for(&mut self, operation: Operation);
    fn size(&self) -> u64;
    fn lent(&mut self) -> Option<&mut Lent>;
    /// A part of a round of an operation: its answers mixed into one number, or none where the engine lacks it.
    /// Of the questions, or else of the values, it takes those in `asked`.
    fn round(&mut self, operation: Operation, input: &Input, asked: Range<usize>, out: &mut Vec<u64>) -> Option<u64>;
}

/// The loops are compiled for each engine, so a call in them is a direct one.
impl<E: Engine> Index for E {
    fn empty_for(&mut self, operation: Operation) {
        if operation == Operation::Push {
            self.empty();
        }
    }

    fn size(&self) -> u64 {
        Engine::size(self)
    }

    fn lent(&mut self) -> Option<&mut Lent> {
        Engine::lent(self)
    }

    fn round(&mut self, operation: Operation, input: &Input, asked: Range<usize>, out: &mut Vec<u64>) -> Option<u64> {
        if operation == Operation::Push {
            return apart(|| input.values[asked].iter().fold(0, |sum, &value| mix(sum, self.push(value))));
        }
        let (a, b) = (asked.start as u64, asked.end as u64);
        let mut reader = self.reader();
        match operation {
            Operation::Push => None,
            Operation::Get => apart(|| input.positions[asked].iter().fold(0, |sum, &p| mix(sum, reader.get(p)))),
            Operation::Bisect => apart(|| input.wanted[asked].iter().fold(0, |sum, &v| mix(sum, reader.bisect_left(v)))),
            // The values are compared after the round.
            Operation::RangeOfAll => {
                reader.get_range(a, b, out);
                Some(b)
            }
            Operation::RangeOf16 => apart(|| {
                input.positions[asked].iter().fold(0, |sum, &p| {
                    reader.get_range(p, p + 16, out);
                    out[..16].iter().fold(sum, |sum, &value| sum.wrapping_add(value))
                })
            }),
            Operation::Step => apart(|| reader.steps(a, b)),
            Operation::Walk => apart(|| reader.walk(a, b)),
            Operation::Audit => reader.audit().map(u64::from),
        }
    }
}

/// A loop in a function of its own, so that none changes how another is compiled.
#[inline(never)]
fn apart(answers: impl FnOnce() -> u64) -> Option<u64> {
    Some(answers())
}

/// Mixes an answer into the answers before it, so that order counts.
pub fn mix(sum: u64, answer: u64) -> u64 {
    sum.rotate_left(1).wrapping_add(answer)
}
