//! The runs on document 01's domain: which lists are pushed, and which calls are made on what they leave.

use crate::chance::{edge, Chance};
use crate::engine::Engine;
use crate::original::{Call, BLOCKS};
use crate::pair::Pair;
use crate::tally::Tally;

/// Values around the edges of bytes, and the largest.
const ALPHABET: [u64; 8] = [0, 1, 255, 256, 257, 65_535, 65_536, u64::MAX];

/// All runs, smallest lists first.
pub fn run(engine: &dyn Engine, chance: &mut Chance, tally: &mut Tally) {
    for block in BLOCKS {
        for minimum in 1..=8 {
            short_lists(engine, block, minimum, 3, &ALPHABET, tally);
            edges(engine, block, minimum, tally);
            for _ in 0..60 {
                list_by_chance(engine, block, minimum, chance, tally);
            }
            for width in minimum..=8 {
                long_segment(engine, block, minimum, width, chance, tally);
            }
        }
        short_lists(engine, block, 1, 5, &[0, 1, 256, 257], tally);
        short_lists(engine, block, 2, 4, &[0, 255, 65_536, 65_537, u64::MAX], tally);
        many_segments(engine, block, chance, tally);
    }
}

/// A small part of it: short lists, and longer ones by chance.
pub fn short_run(engine: &dyn Engine, tally: &mut Tally) {
    short_lists(engine, 64, 1, 3, &ALPHABET, tally);
    for minimum in 1..=8 {
        list_by_chance(engine, 64, minimum, &mut Chance(minimum), tally);
    }
}

/// All lists of at most so many values of the alphabet.
fn short_lists(engine: &dyn Engine, block: usize, minimum: u64, longest: u32, alphabet: &[u64], tally: &mut Tally) {
    let letters = alphabet.len();
    for length in 0..=longest {
        for list in 0..letters.pow(length) {
            let values: Vec<u64> = (0..length).map(|place| alphabet[list / letters.pow(place) % letters]).collect();
            if let Some(mut pair) = pushed(engine, block, minimum, &values, tally) {
                every_read(&mut pair, alphabet, tally);
            }
        }
    }
}

/// Both with the list in them, unless a value is below the base; such a list ends there.
fn pushed<'e>(engine: &'e dyn Engine, block: usize, minimum: u64, values: &[u64], tally: &mut Tally) -> Option<Pair<'e>> {
    let mut pair = Pair::open(engine, block, minimum, values.len());
    for &value in values {
        let below = pair.base().is_some_and(|base| value < base);
        pair.push(tally, value);
        if below {
            return None;
        }
    }
    Some(pair)
}

/// Every read at every position and range up to one past the length, and at the largest numbers.
fn every_read(pair: &mut Pair, values: &[u64], tally: &mut Tally) {
    let positions: Vec<u64> = (0..=pair.length() + 1).chain([u64::MAX - 1, u64::MAX]).collect();
    let mut probes: Vec<u64> = values.iter().flat_map(|&v| [v.saturating_sub(1), v, v.saturating_add(1)]).collect();
    probes.sort();
    probes.dedup();
    for call in [Call::Length, Call::Size].into_iter().chain(probes.iter().map(|&v| Call::BisectLeft(v))) {
        pair.ask(tally, call);
    }
    for &a in &positions {
        pair.ask(tally, Call::Get(a));
        for &t in values {
            pair.ask(tally, Call::TargetRange(a, t));
        }
        for &b in &positions {
            pair.ask(tally, Call::GetRange(a, b));
            pair.ask(tally, Call::Iter(a, b));
            for &v in &probes {
                pair.ask(tally, Call::BisectRangeLeft(a, b, v));
            }
        }
    }
}

/// From a base of each size, deltas at both sides of each byte edge, and the largest value.
fn edges(engine: &dyn Engine, block: usize, minimum: u64, tally: &mut Tally) {
    for bytes in 0..=8 {
        let base = edge(bytes) / 2;
        for delta in (0..=8).flat_map(|bytes| [edge(bytes).wrapping_sub(1), edge(bytes)]) {
            let Some(value) = base.checked_add(delta) else { continue };
            let values = [base, value, base, value, base, u64::MAX, u64::MAX, u64::MAX];
            let mut pair = Pair::open(engine, block, minimum, values.len());
            for value in values {
                if pair.base().is_none_or(|base| base <= value) {
                    pair.push(tally, value);
                }
            }
            let near = |v: u64| [v.wrapping_sub(1), v, v.wrapping_add(1)];
            for v in near(base).into_iter().chain(near(value)).chain(near(u64::MAX)) {
                pair.ask(tally, Call::BisectLeft(v));
            }
            for position in 0..=pair.length() {
                pair.ask(tally, Call::Get(position));
                pair.ask(tally, Call::TargetRange(position, u64::MAX));
                pair.ask(tally, Call::GetRange(position, pair.length()));
            }
        }
    }
}

/// A list of up to 60 values in which segments come often, falling or not; reads by chance after every push.
fn list_by_chance(engine: &dyn Engine, block: usize, minimum: u64, chance: &mut Chance, tally: &mut Tally) {
    let length = chance.below(60) as usize;
    let falls = chance.once_in(2);
    let mut pair = Pair::open(engine, block, minimum, length + 9);
    let mut last = chance.number() >> chance.below(64);
    for _ in 0..length {
        let from = if falls { pair.base().unwrap_or(last) } else { last };
        let step = chance.number() >> chance.of(&[0, 32, 40, 48, 56, 60]);
        last = from.saturating_add(step);
        pair.push(tally, last);
        reads_by_chance(&mut pair, 4, chance, tally);
    }
    reads_by_chance(&mut pair, 60, chance, tally);
    if pair.length() > 0 {
        let later: Vec<u64> = (0..8).map(|k| last.saturating_add(k << (8 * (k / 2)))).collect();
        pair.walk_while_pushing(tally, chance.below(pair.length()), pair.length(), &later);
    }
    below_base(&mut pair, chance, tally);
}

/// Some of each read, at positions and values near what was pushed.
fn reads_by_chance(pair: &mut Pair, times: u32, chance: &mut Chance, tally: &mut Tally) {
    for _ in 0..times {
        let n = pair.length();
        let (a, b) = (chance.below(n + 2), chance.below(n + 2));
        let (low, high) = (a.min(b), a.max(b).min(n));
        let near = chance.of(&[0, 1, u64::MAX]);
        let v = if n == 0 { near } else { chance.of(pair.values()).wrapping_add(near) };
        for call in [
            Call::Length,
            Call::Size,
            Call::Get(a),
            Call::GetRange(low, high),
            Call::Iter(low, high),
            Call::GetRange(a, b),
            Call::Iter(a, b),
            Call::TargetRange(a, v),
            Call::BisectLeft(v),
            Call::BisectRangeLeft(low, high, v),
            Call::BisectRangeLeft(a, b, v),
        ] {
            pair.ask(tally, call);
        }
    }
}

/// A last push below the base. Where the original takes it, the two part.
fn below_base(pair: &mut Pair, chance: &mut Chance, tally: &mut Tally) {
    if let Some(base @ 1..) = pair.base() {
        pair.push(tally, chance.below(base));
    }
}

/// One segment of a few thousand deltas of one width, never falling or falling; then the next segment.
fn long_segment(engine: &dyn Engine, block: usize, minimum: u64, width: u64, chance: &mut Chance, tally: &mut Tally) {
    for falls in [false, true] {
        let length = chance.of(&[300, 600, 1200]);
        let most = edge(width).wrapping_sub(1);
        let base = chance.below(u64::MAX - most + 1);
        let mut deltas: Vec<u64> = (0..length).map(|_| chance.any() & most).collect();
        if !falls {
            deltas.sort();
        }
        // The first delta fixes the width; the list goes on never falling only if it may start there.
        let first = if falls { most } else { edge(width - 1).max(1) };
        let mut pair = Pair::open(engine, block, minimum, length as usize + 4);
        for delta in [0, first].into_iter().chain(deltas.into_iter().filter(|&delta| falls || delta >= first)) {
            pair.push(tally, base + delta);
        }
        if let Some(next) = most.checked_add(1).and_then(|step| base.checked_add(step)) {
            pair.push(tally, next);
            pair.push(tally, next);
        }
        reads_by_chance(&mut pair, 60, chance, tally);
        below_base(&mut pair, chance, tally);
    }
}

/// As many segments as document 01 allows, and one more. Tables are compared at the end.
fn many_segments(engine: &dyn Engine, block: usize, chance: &mut Chance, tally: &mut Tally) {
    let values = (0..=65_535).flat_map(|segment| [segment << 8; 2]);
    let mut pair = Pair::open(engine, block, 1, 2 * 65_536);
    for value in values.take(2 * 65_535) {
        pair.ask(tally, Call::Push(value));
    }
    pair.compare_tables(tally, Call::Length);
    pair.ask(tally, Call::GetRange(0, pair.length()));
    pair.ask(tally, Call::Iter(0, pair.length()));
    for _ in 0..3_000 {
        let (a, b) = (chance.below(pair.length()), chance.below(pair.length()));
        let v = chance.below(65_536 << 8);
        for call in [Call::Get(a), Call::TargetRange(b, v), Call::BisectLeft(v), Call::BisectRangeLeft(a.min(b), a.max(b), v)] {
            pair.ask(tally, call);
        }
        let near = a.min(b).saturating_add(chance.below(40)).min(pair.length());
        pair.ask(tally, Call::GetRange(a.min(near), near));
        pair.ask(tally, Call::Iter(a.min(near), near));
    }
    pair.ask(tally, Call::Push(65_535 << 8));
}
