//! Writes a fixed list of the original's answers, for a program to replay. README.md has the form.

use std::io::{Result, Write};

use crate::chance::Chance;
use crate::model::Model;
use crate::original::{Call, Said};
use crate::pair::Pair;
use crate::tally::Tally;

const OPEN: u64 = 1;
const PUSH: u64 = 2;
const LENGTH: u64 = 3;
const SIZE: u64 = 4;
const GET: u64 = 5;
const GET_RANGE: u64 = 6;
const OUTPUT: u64 = 7;
const ITER: u64 = 8;
const NEXT: u64 = 9;
const TARGET_RANGE: u64 = 10;
const BISECT_LEFT: u64 = 11;
const BISECT_RANGE_LEFT: u64 = 12;
const TABLE: u64 = 13;

/// Lists at the edges of bytes, with falling values, with many segments; a minimum before each.
fn lists() -> Vec<(u64, Vec<u64>)> {
    let mut lists = vec![
        (1, vec![]),
        (1, vec![10]),
        (1, vec![10, 266, 11]),
        (4, vec![10, 11]),
        (1, vec![0, 0, 256, 256, 512]),
        (1, vec![0, u64::MAX, 0, u64::MAX]),
        (1, (0..24).map(|k| (k / 2) << 8).collect()),
        (1, (0..8).flat_map(|bytes| [1u64 << (8 * bytes); 2]).chain([u64::MAX; 3]).collect()),
    ];
    let mut chance = Chance(1);
    for minimum in 1..=8 {
        let mut value = chance.below(1000);
        let rising = (0..16).map(|_| {
            value = value.saturating_add(chance.any() >> chance.of(&[63, 56, 56, 48, 40, 8]));
            value
        });
        lists.push((minimum, rising.collect()));
    }
    lists
}

/// Writes the records, and answers how many. All are on document 01's domain, and all were found equal to the model.
pub fn write(to: &mut impl Write) -> Result<u64> {
    let mut records = Records { to, count: 0 };
    for (minimum, values) in lists() {
        let mut pair = Pair::open(&Model, 4096, minimum, values.len());
        let mut tally = Tally::default();
        records.put(OPEN, [minimum, 0, 0], 1, [0, 0])?;
        for &value in &values {
            let said = pair.push(&mut tally, value);
            records.call(Call::Push(value), said)?;
        }
        for (table, entries) in pair.original_tables().iter().enumerate() {
            for (entry, &number) in entries.iter().enumerate() {
                records.put(TABLE, [table as u64, entry as u64, 0], 1, [number, 0])?;
            }
        }
        for call in calls(&values) {
            let said = pair.ask(&mut tally, call);
            records.call(call, said)?;
        }
        assert_eq!(tally.differ(), 0, "the model differs from the original");
    }
    Ok(records.count)
}

/// Every read, over a list that may be long.
fn calls(values: &[u64]) -> Vec<Call> {
    let n = values.len() as u64;
    let mut calls = vec![Call::Length, Call::Size];
    calls.extend((0..=n).chain([u64::MAX]).map(Call::Get));
    for p in 0..=n {
        let q = (p * 7 + 3) % (n + 2);
        let v = values.get(p as usize).map_or(p, |value| value.wrapping_add(p % 3).wrapping_sub(1));
        calls.extend([Call::TargetRange(p, v), Call::BisectLeft(v)]);
        calls.extend([p.min(q), p.max(q)].map(|b| Call::BisectRangeLeft(p.min(q), b, v)));
        if p % 4 == 0 {
            calls.extend([Call::GetRange(p.min(q), p.max(q)), Call::Iter(p.min(q), p.max(q))]);
        }
    }
    calls
}

struct Records<'a, W> {
    to: &'a mut W,
    count: u64,
}

impl<W: Write> Records<'_, W> {
    /// One record: eight numbers of eight bytes, least significant first.
    fn put(&mut self, kind: u64, [a, b, c]: [u64; 3], answered: u64, [r, s]: [u64; 2]) -> Result<()> {
        for number in [kind, a, b, c, answered, r, s, 0] {
            self.to.write_all(&number.to_le_bytes())?;
        }
        self.count += 1;
        Ok(())
    }

    /// The records of a call, if it is on the domain.
    fn call(&mut self, call: Call, said: Option<Said>) -> Result<()> {
        let (kind, arguments) = match call {
            Call::Push(v) => (PUSH, [v, 0, 0]),
            Call::Length => (LENGTH, [0; 3]),
            Call::Size => (SIZE, [0; 3]),
            Call::Get(p) => (GET, [p, 0, 0]),
            Call::GetRange(a, b) => (GET_RANGE, [a, b, 0]),
            Call::Iter(a, b) => (ITER, [a, b, 0]),
            Call::TargetRange(p, t) => (TARGET_RANGE, [p, t, 0]),
            Call::BisectLeft(v) => (BISECT_LEFT, [v, 0, 0]),
            Call::BisectRangeLeft(a, b, v) => (BISECT_RANGE_LEFT, [a, b, v]),
        };
        match said {
            None => Ok(()),
            Some(Said::Refused(number)) => self.put(kind, arguments, 0, [number, 0]),
            Some(Said::Values(values)) => self.answer(kind, arguments, &values),
            Some(other) => panic!("{call}: {other}"),
        }
    }

    fn answer(&mut self, kind: u64, arguments: [u64; 3], values: &[u64]) -> Result<()> {
        match kind {
            GET_RANGE => {
                self.put(kind, arguments, 1, [values.len() as u64, 0])?;
                for (entry, &value) in values.iter().enumerate() {
                    self.put(OUTPUT, [entry as u64, 0, 0], 1, [value, 0])?;
                }
                Ok(())
            }
            ITER => {
                self.put(kind, arguments, 1, [0, 0])?;
                for &value in values {
                    self.put(NEXT, [0; 3], 1, [value, 0])?;
                }
                self.put(NEXT, [0; 3], 1, [0, 1])
            }
            _ => self.put(kind, arguments, 1, [values[0], *values.get(1).unwrap_or(&0)]),
        }
    }
}
