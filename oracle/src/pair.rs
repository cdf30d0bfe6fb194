//! The original and an engine side by side, given the same calls.

use crate::engine::{Engine, State, Tables};
use crate::model::Model;
use crate::original::{self, Call, Original, Said};
use crate::tally::{Class, Input, Tally};

/// What lent entries hold before anything is written to them.
const SPARE: u64 = 0xD6D6_D6D6_D6D6_D6D6;
const SPARE_BYTE: u8 = 0xD6;

pub struct Pair<'e> {
    engine: &'e dyn Engine,
    original: Box<dyn Original>,
    minimum: u64,
    state: State,
    tables: Tables,
    values: Vec<u64>,
    falling: bool,
}

/// Tables for so many values, as they are lent to a fresh index.
pub fn spare_tables(values: usize) -> Tables {
    Tables {
        starts: vec![SPARE; values],
        bases: vec![SPARE; values],
        offsets: vec![SPARE; values],
        widths: vec![SPARE_BYTE; values],
        data: vec![SPARE_BYTE; 8 * values],
    }
}

/// Calls an engine as the original is called.
pub fn ask(engine: &dyn Engine, state: &mut State, tables: &mut Tables, call: Call) -> Said {
    match call {
        Call::Push(v) => engine.push(state, tables, v).map_or_else(Said::Refused, |position| Said::Values(vec![position])),
        _ => read(engine, state, tables, call),
    }
}

/// Any call but a push. A range gives its values, an iterator its whole walk.
fn read(engine: &dyn Engine, state: &State, tables: &Tables, call: Call) -> Said {
    let answer = match call {
        Call::Push(_) => unreachable!("no read"),
        Call::Length => engine.length(state, tables).map(|length| vec![length]),
        Call::Size => engine.size(state, tables).map(|size| vec![size]),
        Call::Get(p) => engine.get(state, tables, p).map(|value| vec![value]),
        Call::GetRange(a, b) => return get_range(engine, state, tables, a, b),
        Call::Iter(a, b) => return walk(engine, state, tables, a, b),
        Call::TargetRange(p, t) => engine.target_range(state, tables, p, t).map(|(start, end)| vec![start, end]),
        Call::BisectLeft(v) => engine.bisect_left(state, tables, v).map(|position| vec![position]),
        Call::BisectRangeLeft(a, b, v) => engine.bisect_range_left(state, tables, a, b, v).map(|position| vec![position]),
    };
    answer.map_or_else(Said::Refused, Said::Values)
}

/// The values of a range, from an output with two entries to spare.
fn get_range(engine: &dyn Engine, state: &State, tables: &Tables, a: u64, b: u64) -> Said {
    let mut out = vec![SPARE; state.length as usize + 2];
    let answer = engine.get_range(state, tables, a, b, &mut out);
    let count = *answer.as_ref().unwrap_or(&0);
    if out[count as usize..].iter().any(|&entry| entry != SPARE) {
        return Said::Error(format!("{answer:?}, and wrote to the output beyond {count}"));
    }
    out.truncate(count as usize);
    answer.map_or_else(Said::Refused, |_| Said::Values(out))
}

/// The values of a walk, which must stay done once it is done.
fn walk(engine: &dyn Engine, state: &State, tables: &Tables, a: u64, b: u64) -> Said {
    let mut cursor = match engine.iter(state, tables, a, b) {
        Ok(cursor) => cursor,
        Err(refusal) => return Said::Refused(refusal),
    };
    let mut values = Vec::new();
    loop {
        match engine.next(&mut cursor, state, tables) {
            Ok(Some(value)) => values.push(value),
            Ok(None) if engine.next(&mut cursor, state, tables) == Ok(None) => return Said::Values(values),
            Ok(None) => return Said::Error("the walk went on after it was done".into()),
            Err(refusal) => return Said::Refused(refusal),
        }
    }
}

impl<'e> Pair<'e> {
    /// A fresh pair, with room for so many values.
    pub fn open(engine: &'e dyn Engine, block: usize, minimum: u64, room: usize) -> Self {
        Pair {
            engine,
            original: original::open(block, minimum),
            minimum,
            state: engine.open(minimum).expect("a minimum of 1 to 8"),
            tables: spare_tables(room),
            values: Vec::new(),
            falling: false,
        }
    }

    pub fn length(&self) -> u64 {
        self.state.length
    }

    pub fn values(&self) -> &[u64] {
        &self.values
    }

    /// The entries of the original's five tables.
    pub fn original_tables(&self) -> [Vec<u64>; 5] {
        self.original.entries()
    }

    /// The current base.
    pub fn base(&self) -> Option<u64> {
        self.state.segments.checked_sub(1).map(|last| self.tables.bases[last as usize])
    }

    fn input(&self, call: Call) -> Input {
        Input::new(&self.values, self.minimum, self.original.block(), call)
    }

    /// Asks both, and counts. On the domain the original is right (a ranged bisect's answer moved into its range), and what it said is
    /// handed back; elsewhere the model is.
    pub fn ask(&mut self, tally: &mut Tally, call: Call) -> Option<Said> {
        self.original.cut_short();
        let rust = self.original.ask(call);
        let cut_short = self.original.cut_short();
        let class = self.class(call, cut_short);
        let model = class.map(|_| self.ask_model(call));
        let ours = ask(self.engine, &mut self.state, &mut self.tables, call);
        let input = || self.input(call);
        let judged = match (class.zip(model), call, &rust) {
            (Some((class, model)), ..) => {
                tally.outside(class, input, &rust, &ours, &model);
                None
            }
            (None, Call::BisectRangeLeft(a, b, _), Said::Values(answer)) => {
                let moved = Said::Values(vec![answer[0].max(a).min(b)]);
                tally.outside(Class::BisectOutside, input, &rust, &ours, &moved);
                Some(moved)
            }
            _ => Some(rust),
        };
        if let Some(rust) = &judged {
            tally.compare(input, rust, &ours);
        }
        if let (Call::Push(value), Said::Values(_)) = (call, &ours) {
            self.falling |= self.values.last().is_some_and(|&last| value < last);
            self.values.push(value);
        }
        judged
    }

    /// What the model says here. It works on a copy.
    fn ask_model(&self, call: Call) -> Said {
        match call {
            Call::Push(_) => ask(&Model, &mut self.state.clone(), &mut self.tables.clone(), call),
            _ => read(&Model, &self.state, &self.tables, call),
        }
    }

    /// Pushes, and compares the tables, unless the original took what ours refused.
    pub fn push(&mut self, tally: &mut Tally, value: u64) -> Option<Said> {
        let call = Call::Push(value);
        let judged = self.ask(tally, call);
        if self.original.ask(Call::Length) == Said::Values(vec![self.state.length]) {
            self.compare_tables(tally, call);
        }
        judged
    }

    /// Compares a walk over a range on the domain step by step, with a push after each step while there are values to push.
    /// Where ours does not open, its walk is empty.
    pub fn walk_while_pushing(&mut self, tally: &mut Tally, start: u64, end: u64, values: &[u64]) {
        let mut steps = self.original.steps(start, end);
        let mut cursor = self.engine.iter(&self.state, &self.tables, start, end).unwrap_or_default();
        let mut values = values.iter();
        loop {
            let rust = steps();
            let ours = match self.engine.next(&mut cursor, &self.state, &self.tables) {
                Ok(value) => Said::Values(value.into_iter().collect()),
                Err(refusal) => Said::Refused(refusal),
            };
            tally.compare(|| self.input(Call::Iter(start, end)), &rust, &ours);
            if rust != ours || ours == Said::Values(Vec::new()) {
                return;
            }
            if let Some(&value) = values.next() {
                self.push(tally, value);
            }
        }
    }

    /// Compares the five tables entry by entry, spare entries too, and asks the audit.
    pub fn compare_tables(&self, tally: &mut Tally, call: Call) {
        let State { segments, widths, used, .. } = self.state;
        let [starts, bases, offsets, width_bytes, data] = self.original.tables();
        let same = [
            ("starts", words_are(&self.tables.starts, segments, &starts)),
            ("bases", words_are(&self.tables.bases, segments, &bases)),
            ("offsets", words_are(&self.tables.offsets, segments, &offsets)),
            ("widths", bytes_are(&self.tables.widths, widths, &width_bytes)),
            ("data", bytes_are(&self.tables.data, used, &data)),
        ];
        let held = Said::Values(Vec::new());
        for (name, same) in same {
            let said = if same { held.clone() } else { Said::Error(format!("{name} differ")) };
            tally.compare(|| self.input(call), &held, &said);
        }
        let (letter, segment) = self.engine.audit(&self.state, &self.tables);
        tally.compare(|| self.input(call), &Said::Values(vec![0, 0]), &Said::Values(vec![letter, segment]));
    }

    /// The class of a call that lies outside document 01's domain of equality.
    fn class(&self, call: Call, cut_short: bool) -> Option<Class> {
        let n = self.state.length;
        match call {
            Call::Push(v) if self.base().is_some_and(|base| v < base) => Some(Class::BelowBase),
            Call::Push(v) if self.state.segments == 65_535 && self.new_segment_due(v) => Some(Class::Limits),
            Call::GetRange(a, b) if b <= n && a > b => Some(Class::RangeReversed),
            Call::GetRange(0, 0) | Call::Iter(0, 0) if n == 0 => Some(Class::EmptyIndex),
            Call::GetRange(a, b) if (a, b) == (n, n) && self.state.widths < self.state.segments => Some(Class::RangeAtEnd),
            Call::Iter(a, b) if b <= n && a > b => Some(Class::IterReversed),
            Call::BisectLeft(_) if cut_short => Some(Class::AccessShort),
            Call::BisectRangeLeft(a, b, _) if b <= n && a > b => Some(Class::BisectReversed),
            Call::BisectRangeLeft(a, b, v) if b <= n && self.apart(a, b, v) => Some(Class::BisectApart),
            Call::BisectRangeLeft(..) if cut_short => Some(Class::AccessShort),
            Call::BisectRangeLeft(_, b, _) if b <= n && self.falling => Some(Class::BisectFalling),
            _ => None,
        }
    }

    /// Does a value at or above the base not fit the last segment's width?
    fn new_segment_due(&self, v: u64) -> bool {
        let last = self.state.segments as usize - 1;
        let width = (self.state.widths > last as u64).then(|| self.tables.widths[last]);
        width.is_some_and(|width| width < 8 && (v - self.tables.bases[last]) >> (8 * width) > 0)
    }

    /// Does the range end before, or start after, the deltas of the segment that v belongs to, where those are searched?
    fn apart(&self, a: u64, b: u64, v: u64) -> bool {
        let segments = self.state.segments as usize;
        let Some(s) = self.tables.bases[..segments].partition_point(|&base| base <= v).checked_sub(1) else { return false };
        let first = self.tables.starts[s] + 1;
        let end = if s + 1 < segments { self.tables.starts[s + 1] } else { self.state.length };
        self.tables.bases[s] != v && (s as u64) < self.state.widths && (a > end || b < first)
    }
}

/// Does a table start with so many entries of the original's, and hold nothing new after them?
fn words_are(table: &[u64], count: u64, original: &[u8]) -> bool {
    let (written, spare) = table.split_at(count as usize);
    written.len() * 8 == original.len()
        && written.iter().zip(original.chunks_exact(8)).all(|(entry, bytes)| entry.to_le_bytes() == bytes)
        && spare.iter().all(|&entry| entry == SPARE)
}

/// The same of a table of bytes.
fn bytes_are(table: &[u8], count: u64, original: &[u8]) -> bool {
    let (written, spare) = table.split_at(count as usize);
    written == original && spare.iter().all(|&entry| entry == SPARE_BYTE)
}
