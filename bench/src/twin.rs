//! Document 01 as plain Rust over slices: what one writes without proofs. Every index is tested at run time. Its answers are
//! compared on the tables that are measured, which are well formed; on others nothing was run.
//!
//! The entry points are kept out of line, as the border's are.

use rotlantern::Refusal::{self, *};
use rotlantern::{Cursor, State, Tables, TablesMut, Verdict};

use crate::index::{mix, Engine, Reader};
use crate::proved::Lent;

/// Adds a value at the end, and answers its position.
#[inline(never)]
pub fn push(state: &mut State, tables: &mut TablesMut, value: u64) -> Result<u64, Refusal> {
    check_counts(state, &reading(tables))?;
    match last_segment(state, tables)? {
        None => start_segment(state, tables, value)?,
        Some((base, width)) => {
            let delta = value.checked_sub(base).ok_or(Below)?;
            let need = byte_width(delta).max(state.minimum);
            match width {
                None => {
                    let entry = tables.widths.get_mut(state.widths as usize).ok_or(WidthRoom)?;
                    store(state, tables.data, delta, need)?;
                    *entry = need as u8;
                    state.widths += 1;
                }
                Some(width) if need > width => start_segment(state, tables, value)?,
                Some(width) => store(state, tables.data, delta, width)?,
            }
        }
    }
    state.length += 1;
    Ok(state.length - 1)
}

/// The current base, and the current width if there is one.
fn last_segment(state: &State, tables: &TablesMut) -> Result<Option<(u64, Option<u64>)>, Refusal> {
    let Some(last) = state.segments.checked_sub(1) else {
        return Ok(None);
    };
    let base = tables.bases[last as usize];
    if state.widths < state.segments {
        return Ok(Some((base, None)));
    }
    let width = sound_width(state, tables.widths[last as usize])?;
    Ok(Some((base, Some(width))))
}

fn start_segment(state: &mut State, tables: &mut TablesMut, value: u64) -> Result<(), Refusal> {
    let at = state.segments as usize;
    let room = tables.starts.len().min(tables.bases.len()).min(tables.offsets.len()).min(65_535);
    if at >= room {
        return Err(SegmentRoom);
    }
    tables.starts[at] = state.length;
    tables.bases[at] = value;
    tables.offsets[at] = state.used;
    state.segments += 1;
    Ok(())
}

/// Stores the low `width` bytes of a delta at the end of the data.
fn store(state: &mut State, data: &mut [u8], delta: u64, width: u64) -> Result<(), Refusal> {
    let end = state.used + width;
    if end > data.len() as u64 || end > 4_294_967_295 {
        return Err(DataRoom);
    }
    data[state.used as usize..end as usize].copy_from_slice(&delta.to_le_bytes()[..width as usize]);
    state.used = end;
    Ok(())
}

fn byte_width(number: u64) -> u64 {
    match number {
        0 => 1,
        _ => 8 - u64::from(number.leading_zeros()) / 8,
    }
}

/// The value at a position.
#[inline(never)]
pub fn get(state: &State, tables: &Tables, position: u64) -> Result<u64, Refusal> {
    check_counts(state, tables)?;
    if position >= state.length {
        return Err(Position);
    }
    let k = halving(state.segments, |i| tables.starts[i as usize] <= position);
    read_in(state, tables, k.checked_sub(1).ok_or(Damaged)?, position)
}

/// The value at a position of a segment.
fn read_in(state: &State, tables: &Tables, segment: u64, position: u64) -> Result<u64, Refusal> {
    let s = segment as usize;
    let i = position.checked_sub(tables.starts[s]).ok_or(Damaged)?;
    if i == 0 {
        return Ok(tables.bases[s]);
    }
    let width = width_of(state, tables, segment)?.ok_or(Damaged)?;
    let room = state.used.checked_sub(tables.offsets[s]).ok_or(Damaged)?;
    if i > room / width {
        return Err(Damaged);
    }
    let delta = delta_at(tables.data, tables.offsets[s] + (i - 1) * width, width);
    tables.bases[s].checked_add(delta).ok_or(Damaged)
}

/// The values at a..b, into `out` from its first entry; answers how many. All are read before one is written.
#[inline(never)]
pub fn get_range(state: &State, tables: &Tables, a: u64, b: u64, out: &mut [u64]) -> Result<u64, Refusal> {
    check_counts(state, tables)?;
    if b > state.length {
        return Err(RangeEnd);
    }
    let count = b.checked_sub(a).ok_or(Reversed)?;
    let out = out.get_mut(..count as usize).ok_or(OutputRoom)?;
    read_each(state, tables, a, b, |_, _| ())?;
    read_each(state, tables, a, b, |p, value| out[(p - a) as usize] = value)?;
    Ok(count)
}

/// Reads the values at a..b in turn, with one search for each segment.
fn read_each(state: &State, tables: &Tables, a: u64, b: u64, mut read: impl FnMut(u64, u64)) -> Result<(), Refusal> {
    let mut position = a;
    while position < b {
        // Up to the least start that the search turned down, it finds the same segment.
        let mut until = b;
        let k = halving(state.segments, |i| {
            let start = tables.starts[i as usize];
            if start > position {
                until = until.min(start);
            }
            start <= position
        });
        let segment = k.checked_sub(1).ok_or(Damaged)?;
        for p in position..until {
            read(p, read_in(state, tables, segment, p)?);
        }
        position = until;
    }
    Ok(())
}

/// One step of a walk: a value, or none at its end.
#[inline(never)]
pub fn next(cursor: &mut Cursor, state: &State, tables: &Tables) -> Result<Option<u64>, Refusal> {
    if cursor.next >= cursor.end {
        return Ok(None);
    }
    let value = get(state, tables, cursor.next)?;
    cursor.next += 1;
    Ok(Some(value))
}

/// The leftmost position where a value would be ordered.
#[inline(never)]
pub fn bisect_left(state: &State, tables: &Tables, value: u64) -> Result<u64, Refusal> {
    check_counts(state, tables)?;
    let Some(segment) = halving(state.segments, |i| tables.bases[i as usize] <= value).checked_sub(1) else {
        return Ok(0);
    };
    let s = segment as usize;
    let (start, offset) = (tables.starts[s], tables.offsets[s]);
    if start >= state.length {
        return Err(Damaged);
    }
    let gap = value.checked_sub(tables.bases[s]).ok_or(Damaged)?;
    if gap == 0 {
        return Ok(start);
    }
    let Some(width) = width_of(state, tables, segment)? else {
        return Ok(start + 1);
    };
    let end = entry_or(tables.offsets, state.segments, segment + 1, state.used);
    if offset > end || end > state.used {
        return Err(Damaged);
    }
    let deltas = (end - offset) / width;
    if deltas > state.length - start - 1 {
        return Err(Damaged);
    }
    Ok(start + 1 + halving(deltas, |i| delta_at(tables.data, offset + i * width, width) < gap))
}

/// Whether the tables are well formed, or the first rule that fails.
#[inline(never)]
pub fn audit(state: &State, tables: &Tables) -> Verdict {
    if check_counts(state, tables).is_err() {
        return Verdict::Flaw('A', 0);
    }
    for segment in 0..state.segments {
        if let Some(letter) = audit_segment(state, tables, segment) {
            return Verdict::Flaw(letter, segment);
        }
    }
    Verdict::WellFormed
}

/// The first rule, B to F, that a segment breaks.
fn audit_segment(state: &State, tables: &Tables, segment: u64) -> Option<char> {
    let s = segment as usize;
    let (start, base, offset) = (tables.starts[s], tables.bases[s], tables.offsets[s]);
    let last = segment + 1 == state.segments;
    let next_start = if last { state.length } else { tables.starts[s + 1] };
    let next_offset = if last { state.used } else { tables.offsets[s + 1] };
    if segment == 0 && start != 0 || next_start < start || next_start - start < if last { 1 } else { 2 } {
        return Some('B');
    }
    let deltas = next_start - start - 1;
    let width = match width_of(state, tables, segment) {
        Err(_) => return Some('C'),
        Ok(None) => return (segment == 0 && offset != 0 || deltas != 0 || offset != state.used).then_some('E'),
        Ok(Some(width)) => width,
    };
    let next_base = 256u64.checked_pow(width as u32).and_then(|reach| base.checked_add(reach));
    if !last && next_base.is_none_or(|least| tables.bases[s + 1] < least) {
        return Some('D');
    }
    let end = deltas.checked_mul(width).and_then(|count| offset.checked_add(count));
    if segment == 0 && offset != 0 || deltas == 0 || end != Some(next_offset) || next_offset > state.used {
        return Some('E');
    }
    let fits = |i| base.checked_add(delta_at(tables.data, offset + i * width, width)).is_some();
    (!(0..deltas).all(fits)).then_some('F')
}

/// The halving rule over n entries.
fn halving(n: u64, mut test: impl FnMut(u64) -> bool) -> u64 {
    let (mut low, mut high) = (0, n);
    while low < high {
        let mid = (low + high) / 2;
        if test(mid) {
            low = mid + 1;
        } else {
            high = mid;
        }
    }
    low
}

/// The number that `width` bytes from `at` on make, least significant first.
fn delta_at(data: &[u8], at: u64, width: u64) -> u64 {
    let bytes = &data[at as usize..(at + width) as usize];
    bytes.iter().rev().fold(0, |sum, &byte| sum << 8 | u64::from(byte))
}

/// The width of a segment, if it has one.
fn width_of(state: &State, tables: &Tables, segment: u64) -> Result<Option<u64>, Refusal> {
    if segment >= state.widths {
        return Ok(None);
    }
    sound_width(state, tables.widths[segment as usize]).map(Some)
}

/// A width, which must be m to 8.
fn sound_width(state: &State, width: u8) -> Result<u64, Refusal> {
    let width = u64::from(width);
    if width < state.minimum || width > 8 {
        return Err(Damaged);
    }
    Ok(width)
}

/// Entry k of the n in use, or `end` after the last.
fn entry_or(table: &[u64], n: u64, k: u64, end: u64) -> u64 {
    if k < n {
        table[k as usize]
    } else {
        end
    }
}

/// The counts rule.
fn check_counts(state: &State, tables: &Tables) -> Result<(), Refusal> {
    let State { minimum, length, segments, widths, used } = *state;
    let entries = tables.starts.len().min(tables.bases.len()).min(tables.offsets.len()) as u64;
    let held = (1..=8).contains(&minimum)
        && segments <= 65_535
        && segments <= entries
        && widths <= tables.widths.len() as u64
        && used <= tables.data.len() as u64
        && used <= 4_294_967_295
        && match segments {
            0 => length == 0 && widths == 0 && used == 0,
            _ => (widths == segments || widths == segments - 1) && length >= segments && length <= segments + used,
        };
    held.then_some(()).ok_or(Counts)
}

/// The tables of a push, to look at.
fn reading<'a>(tables: &'a TablesMut) -> Tables<'a> {
    Tables { starts: tables.starts, bases: tables.bases, offsets: tables.offsets, widths: tables.widths, data: tables.data }
}

/// The twin's index over lent tables.
pub struct Twin {
    state: State,
    lent: Lent,
}

const FRESH: State = State { minimum: 1, length: 0, segments: 0, widths: 0, used: 0 };

impl Twin {
    pub fn new(n: usize) -> Self {
        Twin { state: FRESH, lent: Lent::new(n) }
    }
}

impl Engine for Twin {
    fn empty(&mut self) {
        self.state = FRESH;
    }

    fn push(&mut self, value: u64) -> u64 {
        push(&mut self.state, &mut self.lent.tables_mut(), value).unwrap()
    }

    fn size(&self) -> u64 {
        24 * self.state.segments + self.state.widths + self.state.used
    }

    fn reader(&mut self) -> impl Reader {
        (self.state, self.lent.tables())
    }

    fn lent(&mut self) -> Option<&mut Lent> {
        Some(&mut self.lent)
    }
}

impl Reader for (State, Tables<'_>) {
    fn get(&mut self, position: u64) -> u64 {
        get(&self.0, &self.1, position).unwrap()
    }

    fn bisect_left(&mut self, value: u64) -> u64 {
        bisect_left(&self.0, &self.1, value).unwrap()
    }

    fn get_range(&mut self, a: u64, b: u64, out: &mut Vec<u64>) {
        get_range(&self.0, &self.1, a, b, out).unwrap();
    }

    fn walk(&mut self, a: u64, b: u64) -> u64 {
        let mut cursor = Cursor { next: a, end: b };
        let mut sum = 0;
        while let Some(value) = next(&mut cursor, &self.0, &self.1).unwrap() {
            sum = mix(sum, value);
        }
        sum
    }

    fn audit(&mut self) -> Option<bool> {
        Some(audit(&self.0, &self.1) == Verdict::WellFormed)
    }
}
