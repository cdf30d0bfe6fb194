//! Wrong programs that look right: document 01's sham programs and slips, and refusals out of order. The runs must find each.

use crate::chance::Chance;
use crate::damaged::Damaged;
use crate::engine::{Answer, Cursor, Engine, State, Tables, Verdict};
use crate::lists;
use crate::model::Model;
use crate::pinned::Pinned;
use crate::tally::Tally;

/// What the wrong program does.
#[derive(Clone, Copy, Debug, PartialEq, Eq)]
enum Slip {
    None,
    RefusesPushes,
    PushWritesNothing,
    PushWritesBeyond,
    SegmentWhereNeedDiffers,
    BelowBeforeDamage,
    DataRoomBeforeWidthRoom,
    NeedForTheBytesDue,
    LengthInvented,
    SizeInvented,
    GetZero,
    FirstDeltaRepeated,
    WidthBeforeBase,
    DataLengthForUsed,
    DamageBeforePosition,
    RangeToNextStart,
    RangeWritesUpToDamage,
    RangeWritesBeyond,
    ReversedBeforeRangeEnd,
    OutputRoomBeforeReversed,
    IterReadsAnEntry,
    CountsBeforeDone,
    CursorMovesOnRefusal,
    RunCountsARest,
    RunPositionBeforeWidth,
    TargetSkipsTheNextRead,
    BisectZero,
    BisectAfterTheBase,
    BisectSkipsTheOffsets,
    RangedSkipsAnEmptyRange,
    AuditNamesTheNextSegment,
    AuditSkipsSums,
}

const SLIPS: [Slip; 31] = [
    Slip::RefusesPushes,
    Slip::PushWritesNothing,
    Slip::PushWritesBeyond,
    Slip::SegmentWhereNeedDiffers,
    Slip::BelowBeforeDamage,
    Slip::DataRoomBeforeWidthRoom,
    Slip::NeedForTheBytesDue,
    Slip::LengthInvented,
    Slip::SizeInvented,
    Slip::GetZero,
    Slip::FirstDeltaRepeated,
    Slip::WidthBeforeBase,
    Slip::DataLengthForUsed,
    Slip::DamageBeforePosition,
    Slip::RangeToNextStart,
    Slip::RangeWritesUpToDamage,
    Slip::RangeWritesBeyond,
    Slip::ReversedBeforeRangeEnd,
    Slip::OutputRoomBeforeReversed,
    Slip::IterReadsAnEntry,
    Slip::CountsBeforeDone,
    Slip::CursorMovesOnRefusal,
    Slip::RunCountsARest,
    Slip::RunPositionBeforeWidth,
    Slip::TargetSkipsTheNextRead,
    Slip::BisectZero,
    Slip::BisectAfterTheBase,
    Slip::BisectSkipsTheOffsets,
    Slip::RangedSkipsAnEmptyRange,
    Slip::AuditNamesTheNextSegment,
    Slip::AuditSkipsSums,
];

/// Tries every wrong program, and the model itself, which must pass. Were all found?
pub fn run() -> bool {
    let mut good = report(Slip::None);
    for slip in SLIPS {
        good &= report(slip);
    }
    good
}

/// Runs one wrong program and says which runs found it.
fn report(slip: Slip) -> bool {
    let sham = Sham(slip);
    let mut pinned = Pinned::quiet();
    pinned.run(&sham);
    let mut tally = Tally::default();
    lists::short_run(&sham, &mut tally);
    let mut damaged = Damaged::default();
    damaged.cases(&sham, 30_000, &mut Chance(1));
    let (pinned, compared, damaged) = (pinned.wrong(), tally.differ(), damaged.differ());
    let found = pinned + compared + damaged > 0;
    let good = found == (slip != Slip::None);
    println!("{}{slip:?}: pinned {pinned}, compared {compared}, damaged {damaged}", if good { "" } else { "FAILED: " });
    good
}

/// The model with one slip.
struct Sham(Slip);

impl Sham {
    fn is(&self, slip: Slip) -> bool {
        self.0 == slip
    }

    /// 7 before 6, or 8 before 6 and 7.
    fn reorder<T>(&self, answer: Answer<T>, a: u64, b: u64, room: usize) -> Answer<T> {
        match answer {
            Err(6) if self.is(Slip::ReversedBeforeRangeEnd) && a > b => Err(7),
            Err(7) if self.is(Slip::OutputRoomBeforeReversed) && room == 0 => Err(8),
            answer => answer,
        }
    }
}

/// The segment of a position, as halving finds it on sorted starts.
fn segment(state: &State, tables: &Tables, p: u64) -> Option<usize> {
    tables.starts[..state.segments as usize].partition_point(|&start| start <= p).checked_sub(1)
}

/// The value of a position as if it lay in segment s, without a search.
fn in_segment(state: &State, tables: &Tables, s: usize, p: u64) -> Answer<u64> {
    let alone = Tables {
        starts: vec![0],
        bases: vec![tables.bases[s]],
        offsets: vec![tables.offsets[s]],
        widths: tables.widths.get(s).copied().into_iter().collect(),
        data: tables.data.clone(),
    };
    let p = p - tables.starts[s];
    let widths = u64::from((s as u64) < state.widths);
    Model.get(&State { length: p + 1, segments: 1, widths, ..*state }, &alone, p).map_err(|_| 10)
}

/// The last segment's base and width, if it has one.
fn last(state: &State, tables: &Tables) -> Option<(u64, Option<u8>)> {
    let last = (state.segments as usize).checked_sub(1)?;
    let width = tables.widths.get(last).copied().filter(|_| state.widths == state.segments);
    tables.bases.get(last).map(|&base| (base, width))
}

impl Engine for Sham {
    fn open(&self, minimum: u64) -> Answer<State> {
        Model.open(minimum)
    }

    fn open_default(&self) -> Answer<State> {
        Model.open_default()
    }

    fn push(&self, state: &mut State, tables: &mut Tables, value: u64) -> Answer<u64> {
        let before = (*state, tables.clone());
        let answer = Model.push(state, tables, value);
        match (self.0, answer, last(&before.0, &before.1)) {
            (Slip::RefusesPushes, Ok(_), _) => {
                (*state, *tables) = before;
                Err(4)
            }
            (Slip::PushWritesNothing, Ok(_), _) => {
                *tables = before.1;
                answer
            }
            (Slip::PushWritesBeyond, Ok(_), _) => {
                if let Some(spare) = tables.data.get_mut(state.used as usize) {
                    *spare = 0;
                }
                answer
            }
            (Slip::SegmentWhereNeedDiffers, Ok(position), Some((base, Some(width))))
                if width as u64 > before.0.minimum && (value - base) >> (8 * (width - 1)) == 0 && state.segments == before.0.segments =>
            {
                let s = before.0.segments as usize;
                if s < tables.starts.len().min(tables.bases.len()).min(tables.offsets.len()) {
                    *tables = before.1;
                    *state = State { length: position + 1, segments: before.0.segments + 1, ..before.0 };
                    (tables.starts[s], tables.bases[s], tables.offsets[s]) = (position, value, state.used);
                }
                answer
            }
            (Slip::BelowBeforeDamage, Err(10), Some((base, _))) if value < base => Err(1),
            (Slip::DataRoomBeforeWidthRoom, Err(3), _) if state.used == tables.data.len() as u64 => Err(4),
            (Slip::NeedForTheBytesDue, Err(4), Some((base, Some(_)))) if value == base && state.used < tables.data.len() as u64 => {
                Ok(state.length)
            }
            _ => answer,
        }
    }

    fn length(&self, state: &State, tables: &Tables) -> Answer<u64> {
        Model.length(state, tables).map(|length| length + u64::from(self.is(Slip::LengthInvented)))
    }

    fn size(&self, state: &State, tables: &Tables) -> Answer<u64> {
        Model.size(state, tables).map(|size| size + u64::from(self.is(Slip::SizeInvented)))
    }

    fn get(&self, state: &State, tables: &Tables, p: u64) -> Answer<u64> {
        let answer = Model.get(state, tables, p);
        match (self.0, answer) {
            (Slip::GetZero, Ok(_)) => Ok(0),
            (Slip::FirstDeltaRepeated, Ok(_)) => {
                let start = segment(state, tables, p).map_or(p, |s| tables.starts[s]);
                Model.get(state, tables, if p > start { start + 1 } else { p })
            }
            (Slip::WidthBeforeBase, Ok(_)) if segment(state, tables, p).is_some_and(|s| s as u64 >= state.widths) => Err(10),
            (Slip::DataLengthForUsed, Err(10)) => Model.get(&State { used: tables.data.len() as u64, ..*state }, tables, p),
            (Slip::DamageBeforePosition, Err(5)) if Model.audit(state, tables).0 > 1 => Err(10),
            _ => answer,
        }
    }

    fn get_range(&self, state: &State, tables: &Tables, a: u64, b: u64, out: &mut [u64]) -> Answer<u64> {
        let answer = Model.get_range(state, tables, a, b, out);
        match (self.0, answer) {
            (Slip::RangeToNextStart, Ok(count)) => {
                let mut s = segment(state, tables, a).ok_or(10u64)?;
                for (p, entry) in (a..b).zip(out.iter_mut()) {
                    while s + 1 < state.segments as usize && tables.starts[s + 1] <= p {
                        s += 1;
                    }
                    *entry = in_segment(state, tables, s, p)?;
                }
                Ok(count)
            }
            (Slip::RangeWritesUpToDamage, Err(10)) => {
                for (p, entry) in (a..b).zip(out.iter_mut()) {
                    *entry = Model.get(state, tables, p)?;
                }
                answer
            }
            (Slip::RangeWritesBeyond, Ok(count)) => {
                if let Some(entry) = out.get_mut(count as usize) {
                    *entry = 0;
                }
                answer
            }
            _ => self.reorder(answer, a, b, out.len()),
        }
    }

    fn iter(&self, state: &State, tables: &Tables, a: u64, b: u64) -> Answer<Cursor> {
        let answer = Model.iter(state, tables, a, b);
        match (self.0, answer) {
            (Slip::IterReadsAnEntry, Ok(cursor)) if a < b => Model.get(state, tables, a).map(|_| cursor),
            _ => self.reorder(answer, a, b, 1),
        }
    }

    fn next(&self, cursor: &mut Cursor, state: &State, tables: &Tables) -> Answer<Option<u64>> {
        let answer = Model.next(cursor, state, tables);
        match (self.0, answer) {
            (Slip::CountsBeforeDone, Ok(None)) => Model.length(state, tables).map(|_| None),
            (Slip::CursorMovesOnRefusal, Err(_)) => {
                cursor.next = cursor.next.wrapping_add(1);
                answer
            }
            _ => answer,
        }
    }

    fn run_count(&self, bytes: &[u8], width: u64) -> Answer<u64> {
        let rest = self.is(Slip::RunCountsARest) && !(bytes.len() as u64).is_multiple_of(width.max(1));
        Model.run_count(bytes, width).map(|count| count + u64::from(rest))
    }

    fn run_value(&self, bytes: &[u8], base: u64, width: u64, i: u64) -> Answer<u64> {
        match Model.run_value(bytes, base, width, i) {
            Err(10) if self.is(Slip::RunPositionBeforeWidth) && i >= bytes.len() as u64 => Err(5),
            answer => answer,
        }
    }

    fn target_range(&self, state: &State, tables: &Tables, p: u64, t: u64) -> Answer<(u64, u64)> {
        let answer = Model.target_range(state, tables, p, t);
        match (self.0, answer) {
            (Slip::TargetSkipsTheNextRead, Err(10)) if t == 0 => Model.get(state, tables, p).map(|start| (start, t)),
            _ => answer,
        }
    }

    fn bisect_left(&self, state: &State, tables: &Tables, v: u64) -> Answer<u64> {
        let answer = Model.bisect_left(state, tables, v);
        match (self.0, answer) {
            (Slip::BisectZero, Ok(_)) => Ok(0),
            (Slip::BisectAfterTheBase, Ok(p)) if Model.get(state, tables, p) == Ok(v) && tables.starts.contains(&p) => Ok(p + 1),
            (Slip::BisectSkipsTheOffsets, Err(10)) => Ok(0),
            _ => answer,
        }
    }

    fn bisect_range_left(&self, state: &State, tables: &Tables, a: u64, b: u64, v: u64) -> Answer<u64> {
        let answer = Model.bisect_range_left(state, tables, a, b, v);
        match (self.0, answer) {
            (Slip::RangedSkipsAnEmptyRange, Err(10)) if a == b => Ok(a),
            _ => self.reorder(answer, a, b, 1),
        }
    }

    fn audit(&self, state: &State, tables: &Tables) -> Verdict {
        let verdict = Model.audit(state, tables);
        match (self.0, verdict) {
            (Slip::AuditNamesTheNextSegment, (5, segment)) => (5, segment + 1),
            (Slip::AuditSkipsSums, (6, _)) => (0, 0),
            _ => verdict,
        }
    }
}
