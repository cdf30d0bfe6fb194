//! Document 01's rules as a plain program, written from its text alone: neither from our definitions nor from the original.
//!
//! Sums and products are taken in `u128`, where none of them can overflow.

use crate::engine::{Answer, Cursor, Engine, State, Tables, Verdict};

const BELOW: u64 = 1;
const SEGMENT_ROOM: u64 = 2;
const WIDTH_ROOM: u64 = 3;
const DATA_ROOM: u64 = 4;
const POSITION: u64 = 5;
const RANGE_END: u64 = 6;
const REVERSED: u64 = 7;
const OUTPUT_ROOM: u64 = 8;
const COUNTS: u64 = 9;
const DAMAGED: u64 = 10;
const MINIMUM: u64 = 11;

const MOST_SEGMENTS: u64 = 65_535;
const MOST_DATA: u64 = 4_294_967_295;

pub struct Model;

/// The refusal, if the test fails.
fn require(holds: bool, refusal: u64) -> Answer<()> {
    if holds {
        Ok(())
    } else {
        Err(refusal)
    }
}

/// "1 for 0, otherwise 8 less its leading zero bits divided by 8 rounded down."
fn byte_width(number: u64) -> u64 {
    if number == 0 {
        1
    } else {
        8 - u64::from(number.leading_zeros()) / 8
    }
}

/// The halving rule over n entries.
fn halving(n: u64, test: impl Fn(u64) -> bool) -> u64 {
    let (mut low, mut high) = (0, n);
    while low < high {
        let mid = (low + high) / 2;
        if test(mid) {
            low = mid + 1;
        } else {
            high = mid;
        }
    }
    low
}

/// The number in bytes, least significant first.
fn number(bytes: &[u8]) -> u64 {
    bytes.iter().rev().fold(0, |high, &byte| high << 8 | u64::from(byte))
}

/// base + delta, which is damage above 2^64 - 1.
fn sum(base: u64, delta: u64) -> Answer<u64> {
    base.checked_add(delta).ok_or(DAMAGED)
}

/// A state with the tables lent to it.
struct Index<'a> {
    state: &'a State,
    tables: &'a Tables,
}

impl<'a> Index<'a> {
    /// State and tables that keep the counts rule.
    fn new(state: &'a State, tables: &'a Tables) -> Answer<Self> {
        require(counts_hold(state, tables), COUNTS)?;
        Ok(Index { state, tables })
    }

    fn start(&self, s: u64) -> u64 {
        self.tables.starts[s as usize]
    }

    fn base(&self, s: u64) -> u64 {
        self.tables.bases[s as usize]
    }

    fn offset(&self, s: u64) -> u64 {
        self.tables.offsets[s as usize]
    }

    /// The segment's width entry, if it has one.
    fn width(&self, s: u64) -> Option<u64> {
        (s < self.state.widths).then(|| u64::from(self.tables.widths[s as usize]))
    }

    fn width_is_good(&self, width: u64) -> bool {
        (self.state.minimum..=8).contains(&width)
    }

    fn is_last(&self, s: u64) -> bool {
        s + 1 == self.state.segments
    }

    /// The delta in the width bytes from `begin` on, which the caller knows to lie within the data.
    fn delta(&self, begin: u64, width: u64) -> u64 {
        number(&self.tables.data[begin as usize..(begin + width) as usize])
    }

    fn position_is_in(&self, p: u64) -> Answer<()> {
        require(p < self.state.length, POSITION)
    }

    fn range_is_in(&self, a: u64, b: u64) -> Answer<()> {
        require(b <= self.state.length, RANGE_END)?;
        require(a <= b, REVERSED)
    }

    /// get, where the position is below the length.
    fn read(&self, p: u64) -> Answer<u64> {
        let k = halving(self.state.segments, |i| self.start(i) <= p);
        require(k > 0, DAMAGED)?;
        let s = k - 1;
        require(self.start(s) <= p, DAMAGED)?;
        if p == self.start(s) {
            return Ok(self.base(s));
        }
        let width = self.width(s).ok_or(DAMAGED)?;
        require(self.width_is_good(width), DAMAGED)?;
        let before = u128::from(p - self.start(s) - 1);
        let begin = u128::from(self.offset(s)) + before * u128::from(width);
        require(begin + u128::from(width) <= u128::from(self.state.used), DAMAGED)?;
        sum(self.base(s), self.delta(begin as u64, width))
    }

    /// bisect_left, where the counts rule holds.
    fn bisect(&self, v: u64) -> Answer<u64> {
        let State { length, segments, used, .. } = *self.state;
        if length == 0 {
            return Ok(0);
        }
        let k = halving(segments, |i| self.base(i) <= v);
        if k == 0 {
            return Ok(0);
        }
        let s = k - 1;
        require(self.start(s) < length, DAMAGED)?;
        if self.base(s) == v {
            return Ok(self.start(s));
        }
        require(self.base(s) <= v, DAMAGED)?;
        let Some(width) = self.width(s) else {
            return Ok(self.start(s) + 1);
        };
        require(self.width_is_good(width), DAMAGED)?;
        let begin = self.offset(s);
        let end = if self.is_last(s) { used } else { self.offset(s + 1) };
        require(begin <= end && end <= used, DAMAGED)?;
        let count = (end - begin) / width;
        require(count < length - self.start(s), DAMAGED)?;
        let low = halving(count, |i| self.delta(begin + i * width, width) < v - self.base(s));
        Ok(self.start(s) + 1 + low)
    }

    /// Rule B of segment s: starts.
    fn starts_hold(&self, s: u64) -> bool {
        let first = s > 0 || self.start(s) == 0;
        let next = if self.is_last(s) {
            self.start(s) < self.state.length
        } else {
            u128::from(self.start(s + 1)) >= u128::from(self.start(s)) + 2
        };
        first && next
    }

    /// Rule C: the width, if present.
    fn width_holds(&self, s: u64) -> bool {
        self.width(s).is_none_or(|width| self.width_is_good(width))
    }

    /// Rule D: the next base. Every segment but the last has a width by the counts rule.
    fn bases_hold(&self, s: u64) -> bool {
        let Some(width) = self.width(s) else { return true };
        self.is_last(s) || u128::from(self.base(s + 1)) >= u128::from(self.base(s)) + (1 << (8 * width))
    }

    /// How many deltas the segment has, where rule B holds.
    fn deltas(&self, s: u64) -> u64 {
        let end = if self.is_last(s) { self.state.length } else { self.start(s + 1) };
        end - self.start(s) - 1
    }

    /// Rule E: offsets.
    fn offsets_hold(&self, s: u64) -> bool {
        let first = s > 0 || self.offset(s) == 0;
        let next = if self.is_last(s) { self.state.used } else { self.offset(s + 1) };
        let deltas = self.deltas(s);
        let number = match self.width(s) {
            None => deltas == 0,
            Some(_) => deltas > 0,
        };
        let end = u128::from(self.offset(s)) + u128::from(deltas) * u128::from(self.width(s).unwrap_or(0));
        first && number && end == u128::from(next) && end <= u128::from(self.state.used)
    }

    /// Rule F: every sum, where rules C and E hold.
    fn sums_hold(&self, s: u64) -> bool {
        let Some(width) = self.width(s) else { return true };
        (0..self.deltas(s)).all(|i| sum(self.base(s), self.delta(self.offset(s) + i * width, width)).is_ok())
    }
}

/// The counts rule.
fn counts_hold(state: &State, tables: &Tables) -> bool {
    let State { minimum, length, segments, widths, used } = *state;
    let fits = |count: u64, room: usize| count <= room as u64;
    (1..=8).contains(&minimum)
        && segments <= MOST_SEGMENTS
        && fits(segments, tables.starts.len())
        && fits(segments, tables.bases.len())
        && fits(segments, tables.offsets.len())
        && fits(widths, tables.widths.len())
        && fits(used, tables.data.len())
        && used <= MOST_DATA
        && (segments == 0) == (length == 0)
        && if segments == 0 { widths == 0 && used == 0 } else { widths == segments || widths == segments - 1 }
        && length >= segments
        && u128::from(length) <= u128::from(segments) + u128::from(used)
}

/// Appends a segment with base v.
fn new_segment(state: &mut State, tables: &mut Tables, v: u64) -> Answer<()> {
    let room = [&tables.starts, &tables.bases, &tables.offsets].iter().all(|table| state.segments < table.len() as u64);
    require(state.segments < MOST_SEGMENTS && room, SEGMENT_ROOM)?;
    let s = state.segments as usize;
    tables.starts[s] = state.length;
    tables.bases[s] = v;
    tables.offsets[s] = state.used;
    state.segments += 1;
    Ok(())
}

/// Is there room for so many more data bytes?
fn data_room(state: &State, tables: &Tables, due: u64) -> Answer<()> {
    require(state.used + due <= MOST_DATA.min(tables.data.len() as u64), DATA_ROOM)
}

/// Appends the delta's low bytes.
fn append(state: &mut State, tables: &mut Tables, delta: u64, width: u64) {
    let begin = state.used as usize;
    tables.data[begin..begin + width as usize].copy_from_slice(&delta.to_le_bytes()[..width as usize]);
    state.used += width;
}

/// A run's width must be 1 to 8.
fn run_width(width: u64) -> Answer<()> {
    require((1..=8).contains(&width), DAMAGED)
}

impl Engine for Model {
    fn open(&self, minimum: u64) -> Answer<State> {
        require((1..=8).contains(&minimum), MINIMUM)?;
        Ok(State { minimum, ..State::default() })
    }

    fn open_default(&self) -> Answer<State> {
        self.open(1)
    }

    fn push(&self, state: &mut State, tables: &mut Tables, v: u64) -> Answer<u64> {
        let index = Index::new(state, tables)?;
        if state.segments == 0 {
            new_segment(state, tables, v)?;
        } else {
            let last = state.segments - 1;
            let width = index.width(last);
            require(width.is_none_or(|width| index.width_is_good(width)), DAMAGED)?;
            let base = index.base(last);
            require(base <= v, BELOW)?;
            let delta = v - base;
            let need = byte_width(delta).max(state.minimum);
            match width {
                None => {
                    require(state.widths < tables.widths.len() as u64, WIDTH_ROOM)?;
                    data_room(state, tables, need)?;
                    tables.widths[state.widths as usize] = need as u8;
                    state.widths += 1;
                    append(state, tables, delta, need);
                }
                Some(width) if need > width => new_segment(state, tables, v)?,
                Some(width) => {
                    data_room(state, tables, width)?;
                    append(state, tables, delta, width);
                }
            }
        }
        state.length += 1;
        Ok(state.length - 1)
    }

    fn length(&self, state: &State, tables: &Tables) -> Answer<u64> {
        Ok(Index::new(state, tables)?.state.length)
    }

    fn size(&self, state: &State, tables: &Tables) -> Answer<u64> {
        let State { segments, widths, used, .. } = *Index::new(state, tables)?.state;
        Ok(24 * segments + widths + used)
    }

    fn get(&self, state: &State, tables: &Tables, p: u64) -> Answer<u64> {
        let index = Index::new(state, tables)?;
        index.position_is_in(p)?;
        index.read(p)
    }

    fn get_range(&self, state: &State, tables: &Tables, a: u64, b: u64, out: &mut [u64]) -> Answer<u64> {
        let index = Index::new(state, tables)?;
        index.range_is_in(a, b)?;
        require(b - a <= out.len() as u64, OUTPUT_ROOM)?;
        let values = (a..b).map(|p| index.read(p)).collect::<Answer<Vec<_>>>()?;
        out[..values.len()].copy_from_slice(&values);
        Ok(b - a)
    }

    fn iter(&self, state: &State, tables: &Tables, a: u64, b: u64) -> Answer<Cursor> {
        Index::new(state, tables)?.range_is_in(a, b)?;
        Ok(Cursor { next: a, end: b })
    }

    fn next(&self, cursor: &mut Cursor, state: &State, tables: &Tables) -> Answer<Option<u64>> {
        if cursor.next >= cursor.end {
            return Ok(None);
        }
        let value = self.get(state, tables, cursor.next)?;
        cursor.next += 1;
        Ok(Some(value))
    }

    fn run_count(&self, bytes: &[u8], width: u64) -> Answer<u64> {
        run_width(width)?;
        Ok(bytes.len() as u64 / width)
    }

    fn run_value(&self, bytes: &[u8], base: u64, width: u64, i: u64) -> Answer<u64> {
        let count = self.run_count(bytes, width)?;
        require(i < count, POSITION)?;
        let begin = (i * width) as usize;
        sum(base, number(&bytes[begin..begin + width as usize]))
    }

    fn target_range(&self, state: &State, tables: &Tables, p: u64, t: u64) -> Answer<(u64, u64)> {
        let index = Index::new(state, tables)?;
        index.position_is_in(p)?;
        let start = index.read(p)?;
        let end = if p + 2 > state.length { t } else { index.read(p + 1)?.min(t) };
        Ok((start, end))
    }

    fn bisect_left(&self, state: &State, tables: &Tables, v: u64) -> Answer<u64> {
        Index::new(state, tables)?.bisect(v)
    }

    fn bisect_range_left(&self, state: &State, tables: &Tables, a: u64, b: u64, v: u64) -> Answer<u64> {
        let index = Index::new(state, tables)?;
        index.range_is_in(a, b)?;
        Ok(index.bisect(v)?.max(a).min(b))
    }

    fn audit(&self, state: &State, tables: &Tables) -> Verdict {
        let Ok(index) = Index::new(state, tables) else { return (1, 0) };
        let rules = [Index::starts_hold, Index::width_holds, Index::bases_hold, Index::offsets_hold, Index::sums_hold];
        for s in 0..state.segments {
            for (letter, holds) in (2..).zip(rules) {
                if !holds(&index, s) {
                    return (letter, s);
                }
            }
        }
        (0, 0)
    }
}
