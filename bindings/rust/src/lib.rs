//! An append-only index of 64-bit values, over proved code.
//!
//! [`CompactIndex`] owns its tables and grows them. [`View`] reads tables that somebody else owns, and [`push`]
//! appends to them. Every call answers as the rules of `crates/rules/specs` say; a refused call changes nothing.
//!
//! ```
//! let mut index = rotlantern::CompactIndex::new(1)?;
//! for v in [0, 0, 256, 256, 512] {
//!     index.push(v)?;
//! }
//! assert_eq!(index.get(3), Ok(256));
//! assert_eq!(index.bisect_left(257), Ok(4));
//! assert_eq!(index.get(5), Err(rotlantern::Refusal::Position));
//! # Ok::<(), rotlantern::Refusal>(())
//! ```

mod sys;

use std::fmt;
use std::ops::Range;

/// Why a call is refused, by its number.
#[derive(Clone, Copy, Debug, PartialEq, Eq)]
#[repr(u64)]
pub enum Refusal {
    /// The value is below the current base.
    Below = 1,
    /// A new segment is due, and there is no room for one.
    SegmentRoom = 2,
    /// A width is due, and its table is full.
    WidthRoom = 3,
    /// The bytes due do not fit the data.
    DataRoom = 4,
    /// The position is at or past the length.
    Position = 5,
    /// The range ends past the length.
    RangeEnd = 6,
    /// The range ends before it starts.
    Reversed = 7,
    /// The output is shorter than the range.
    OutputRoom = 8,
    /// The state's counts cannot be true of these tables.
    Counts = 9,
    /// The tables contradict themselves where the call reads them.
    Damaged = 10,
    /// The minimum width is outside 1 to 8.
    Minimum = 11,
}

impl Refusal {
    const ALL: [Refusal; 11] = [
        Refusal::Below,
        Refusal::SegmentRoom,
        Refusal::WidthRoom,
        Refusal::DataRoom,
        Refusal::Position,
        Refusal::RangeEnd,
        Refusal::Reversed,
        Refusal::OutputRoom,
        Refusal::Counts,
        Refusal::Damaged,
        Refusal::Minimum,
    ];

    /// The refusal's number, 1 to 11.
    pub fn number(self) -> u64 {
        self as u64
    }

    /// `Ok` for 0, otherwise the refusal of this number.
    #[inline]
    fn check(number: u64) -> Result<(), Refusal> {
        match number {
            0 => Ok(()),
            n => Err(Self::ALL[n as usize - 1]),
        }
    }
}

impl fmt::Display for Refusal {
    fn fmt(&self, f: &mut fmt::Formatter) -> fmt::Result {
        write!(f, "refused {} ({:?})", self.number(), self)
    }
}

impl std::error::Error for Refusal {}

/// The five numbers of an index.
#[derive(Clone, Copy, Debug, Default, PartialEq, Eq)]
#[repr(C)]
pub struct State {
    /// The least width of a delta, 1 to 8.
    pub minimum: u64,
    /// How many values.
    pub length: u64,
    /// How many entries of starts, bases and offsets are in use.
    pub segments: u64,
    /// How many entries of widths are in use.
    pub widths: u64,
    /// How many data bytes are in use.
    pub used: u64,
}

impl State {
    /// A fresh state with this minimum width.
    pub fn open(minimum: u64) -> Result<State, Refusal> {
        let mut state = State::default();
        Refusal::check(unsafe { sys::rotlantern_open(minimum, &mut state) })?;
        Ok(state)
    }

    /// A fresh state with the default minimum width.
    pub fn open_default() -> State {
        let mut state = State::default();
        let answered = unsafe { sys::rotlantern_open_default(&mut state) };
        debug_assert_eq!(answered, 0);
        state
    }
}

/// A walk: the position to read next, and the one to stop at.
#[derive(Clone, Copy, Debug, Default, PartialEq, Eq)]
#[repr(C)]
pub struct Cursor {
    /// The position to read next.
    pub next: u64,
    /// The position to stop at.
    pub end: u64,
}

/// What the audit answers.
#[derive(Clone, Copy, Debug, PartialEq, Eq)]
pub enum Verdict {
    /// Every rule holds.
    WellFormed,
    /// The first rule that fails, 'A' to 'F', and its segment.
    Flaw(char, u64),
}

/// Five tables that somebody else owns, for reading.
#[derive(Clone, Copy, Debug)]
pub struct Tables<'a> {
    /// Starting position of each segment.
    pub starts: &'a [u64],
    /// Base value of each segment.
    pub bases: &'a [u64],
    /// Data offset of each segment.
    pub offsets: &'a [u64],
    /// Delta width of each segment.
    pub widths: &'a [u8],
    /// Deltas of all segments.
    pub data: &'a [u8],
}

/// Five tables that somebody else owns, to append to.
#[derive(Debug)]
pub struct TablesMut<'a> {
    /// Starting position of each segment.
    pub starts: &'a mut [u64],
    /// Base value of each segment.
    pub bases: &'a mut [u64],
    /// Data offset of each segment.
    pub offsets: &'a mut [u64],
    /// Delta width of each segment.
    pub widths: &'a mut [u8],
    /// Deltas of all segments.
    pub data: &'a mut [u8],
}

/// Adds a value at the end, and answers its position.
#[inline]
pub fn push(state: &mut State, tables: TablesMut, value: u64) -> Result<u64, Refusal> {
    let mut position = 0;
    Refusal::check(unsafe {
        sys::rotlantern_push(
            state,
            tables.starts.as_mut_ptr(),
            tables.starts.len(),
            tables.bases.as_mut_ptr(),
            tables.bases.len(),
            tables.offsets.as_mut_ptr(),
            tables.offsets.len(),
            tables.widths.as_mut_ptr(),
            tables.widths.len(),
            tables.data.as_mut_ptr(),
            tables.data.len(),
            value,
            &mut position,
        )
    })?;
    Ok(position)
}

/// Calls a reading function of the border with what stands first, if anything, the state, the five tables and what follows.
macro_rules! call {
    ($name:ident $(($first:expr))?, $view:expr, $($rest:expr),*) => {{
        let t = $view.tables;
        Refusal::check(unsafe {
            sys::$name(
                $($first,)?
                &$view.state,
                t.starts.as_ptr(),
                t.starts.len(),
                t.bases.as_ptr(),
                t.bases.len(),
                t.offsets.as_ptr(),
                t.offsets.len(),
                t.widths.as_ptr(),
                t.widths.len(),
                t.data.as_ptr(),
                t.data.len(),
                $($rest),*
            )
        })
    }};
}

/// An index over tables that somebody else owns.
#[derive(Clone, Copy, Debug)]
pub struct View<'a> {
    /// The five numbers.
    pub state: State,
    /// The five tables.
    pub tables: Tables<'a>,
}

impl<'a> View<'a> {
    /// How many values there are.
    #[inline]
    pub fn len(&self) -> Result<u64, Refusal> {
        let mut value = 0;
        call!(rotlantern_length, self, &mut value)?;
        Ok(value)
    }

    /// Whether there is no value.
    #[inline]
    pub fn is_empty(&self) -> Result<bool, Refusal> {
        Ok(self.len()? == 0)
    }

    /// How many bytes the index takes.
    #[inline]
    pub fn size(&self) -> Result<u64, Refusal> {
        let mut value = 0;
        call!(rotlantern_size, self, &mut value)?;
        Ok(value)
    }

    /// The value at a position.
    #[inline]
    pub fn get(&self, position: u64) -> Result<u64, Refusal> {
        let mut value = 0;
        call!(rotlantern_get, self, position, &mut value)?;
        Ok(value)
    }

    /// The values at a..b, into `out` from its first entry; answers how many.
    #[inline]
    pub fn get_range(&self, a: u64, b: u64, out: &mut [u64]) -> Result<u64, Refusal> {
        let mut count = 0;
        call!(
            rotlantern_get_range,
            self,
            a,
            b,
            out.as_mut_ptr(),
            out.len(),
            &mut count
        )?;
        Ok(count)
    }

    /// A walk over a..b. It stops at its first refusal.
    #[inline]
    pub fn iter(&self, a: u64, b: u64) -> Result<Iter<'a>, Refusal> {
        let mut cursor = Cursor::default();
        call!(rotlantern_iter, self, a, b, &mut cursor)?;
        Ok(Iter {
            view: *self,
            cursor,
            ahead: [0; AHEAD],
            ready: 0..0,
        })
    }

    /// One step of a walk: the value at the cursor, which moves on, or none at its end. A refused step leaves the cursor.
    #[inline]
    pub fn next(&self, cursor: &mut Cursor) -> Result<Option<u64>, Refusal> {
        let (mut value, mut done) = (0, 0);
        call!(rotlantern_next(cursor), self, &mut value, &mut done)?;
        Ok((done == 0).then_some(value))
    }

    /// The range of values from the one at a position to the next one, or to the target length.
    #[inline]
    pub fn target_range(&self, position: u64, target_length: u64) -> Result<(u64, u64), Refusal> {
        let (mut start, mut end) = (0, 0);
        call!(
            rotlantern_target_range,
            self,
            position,
            target_length,
            &mut start,
            &mut end
        )?;
        Ok((start, end))
    }

    /// The leftmost position where a value would be ordered.
    #[inline]
    pub fn bisect_left(&self, value: u64) -> Result<u64, Refusal> {
        let mut position = 0;
        call!(rotlantern_bisect_left, self, value, &mut position)?;
        Ok(position)
    }

    /// The same, raised to at least a and lowered to at most b.
    #[inline]
    pub fn bisect_range_left(&self, a: u64, b: u64, value: u64) -> Result<u64, Refusal> {
        let mut position = 0;
        call!(
            rotlantern_bisect_range_left,
            self,
            a,
            b,
            value,
            &mut position
        )?;
        Ok(position)
    }

    /// Whether the tables are well formed, or the first rule that fails.
    #[inline]
    pub fn audit(&self) -> Verdict {
        let (mut letter, mut segment) = (0, 0);
        let answered = call!(rotlantern_audit, self, &mut letter, &mut segment);
        debug_assert_eq!(answered, Ok(()));
        match letter {
            0 => Verdict::WellFormed,
            l => Verdict::Flaw((b'A' + l as u8 - 1) as char, segment),
        }
    }
}

/// How many values a walk reads at once.
const AHEAD: usize = 64;

/// A walk over the values of a view. It reads some values ahead, and gives what single steps would give.
#[derive(Clone, Debug)]
pub struct Iter<'a> {
    view: View<'a>,
    /// What is not read yet.
    cursor: Cursor,
    /// The values last read.
    ahead: [u64; AHEAD],
    /// Which of them are not given yet.
    ready: Range<usize>,
}

impl Iterator for Iter<'_> {
    type Item = Result<u64, Refusal>;

    #[inline]
    fn next(&mut self) -> Option<Self::Item> {
        match self.ready.next() {
            Some(i) => Some(Ok(self.ahead[i])),
            None => self.read_on(),
        }
    }
}

impl Iter<'_> {
    /// Reads ahead and gives the first value. Where one of the values is refused, takes a single step. `walk_as_range` and
    /// `walk_there` in crates/theorems: what a range answers is what the steps give.
    fn read_on(&mut self) -> Option<Result<u64, Refusal>> {
        let Cursor { next, end } = self.cursor;
        let until = end.min(next + AHEAD as u64);
        let Ok(count) = self.view.get_range(next, until, &mut self.ahead) else {
            return self.step();
        };
        self.cursor.next = until;
        self.ready = 0..count as usize;
        self.ready.next().map(|i| Ok(self.ahead[i]))
    }

    /// A single step. A refused one ends the walk.
    fn step(&mut self) -> Option<Result<u64, Refusal>> {
        let answer = self.view.next(&mut self.cursor);
        if answer.is_err() {
            self.cursor.end = self.cursor.next;
        }
        answer.transpose()
    }
}

/// One segment's packed deltas, with its base and width.
#[derive(Clone, Copy, Debug)]
pub struct DeltaRun<'a> {
    /// The packed bytes.
    pub bytes: &'a [u8],
    /// The segment's base.
    pub base: u64,
    /// The width of a delta.
    pub width: u64,
}

impl DeltaRun<'_> {
    /// How many deltas there are.
    pub fn count(&self) -> Result<u64, Refusal> {
        let mut count = 0;
        Refusal::check(unsafe {
            sys::rotlantern_run_count(
                self.bytes.as_ptr(),
                self.bytes.len(),
                self.width,
                &mut count,
            )
        })?;
        Ok(count)
    }

    /// The i-th value.
    pub fn value(&self, i: u64) -> Result<u64, Refusal> {
        let mut value = 0;
        Refusal::check(unsafe {
            sys::rotlantern_run_value(
                self.bytes.as_ptr(),
                self.bytes.len(),
                self.base,
                self.width,
                i,
                &mut value,
            )
        })?;
        Ok(value)
    }
}

/// An index that owns its tables and grows them as values come.
#[derive(Clone, Debug)]
pub struct CompactIndex {
    state: State,
    starts: Vec<u64>,
    bases: Vec<u64>,
    offsets: Vec<u64>,
    widths: Vec<u8>,
    data: Vec<u8>,
}

impl Default for CompactIndex {
    /// An empty index with the default minimum width.
    fn default() -> Self {
        Self::over(State::open_default())
    }
}

impl CompactIndex {
    /// An empty index with this minimum width.
    pub fn new(minimum: u64) -> Result<Self, Refusal> {
        Ok(Self::over(State::open(minimum)?))
    }

    fn over(state: State) -> Self {
        CompactIndex {
            state,
            starts: Vec::new(),
            bases: Vec::new(),
            offsets: Vec::new(),
            widths: Vec::new(),
            data: Vec::new(),
        }
    }

    /// Adds a value at the end, and answers its position. A table that is full is doubled; what is refused then has met a limit.
    #[inline]
    pub fn push(&mut self, value: u64) -> Result<u64, Refusal> {
        match self.try_push(value) {
            Err(Refusal::SegmentRoom | Refusal::WidthRoom | Refusal::DataRoom) => {
                self.grow();
                self.try_push(value)
            }
            answer => answer,
        }
    }

    #[inline]
    fn try_push(&mut self, value: u64) -> Result<u64, Refusal> {
        let tables = TablesMut {
            starts: &mut self.starts,
            bases: &mut self.bases,
            offsets: &mut self.offsets,
            widths: &mut self.widths,
            data: &mut self.data,
        };
        push(&mut self.state, tables, value)
    }

    /// Room for twice the entries in use, and some.
    #[cold]
    fn grow(&mut self) {
        let entries = 2 * self.state.segments as usize + 4;
        for table in [&mut self.starts, &mut self.bases, &mut self.offsets] {
            table.resize(table.len().max(entries), 0);
        }
        self.widths.resize(self.widths.len().max(entries), 0);
        let bytes = 2 * self.state.used as usize + 64;
        self.data.resize(self.data.len().max(bytes), 0);
    }

    /// The index for reading.
    #[inline]
    pub fn view(&self) -> View<'_> {
        let tables = Tables {
            starts: &self.starts,
            bases: &self.bases,
            offsets: &self.offsets,
            widths: &self.widths,
            data: &self.data,
        };
        View {
            state: self.state,
            tables,
        }
    }

    /// The five numbers.
    #[inline]
    pub fn state(&self) -> State {
        self.state
    }

    /// How many values there are.
    #[inline]
    pub fn len(&self) -> u64 {
        self.state.length
    }

    /// Whether there is no value.
    #[inline]
    pub fn is_empty(&self) -> bool {
        self.state.length == 0
    }

    /// How many bytes the entries in use take.
    #[inline]
    pub fn size(&self) -> Result<u64, Refusal> {
        self.view().size()
    }

    /// The value at a position.
    #[inline]
    pub fn get(&self, position: u64) -> Result<u64, Refusal> {
        self.view().get(position)
    }

    /// The values at a..b.
    #[inline]
    pub fn get_range(&self, a: u64, b: u64) -> Result<Vec<u64>, Refusal> {
        let room = b.min(self.len()).saturating_sub(a);
        let mut values = vec![0; room as usize];
        self.view().get_range(a, b, &mut values)?;
        Ok(values)
    }

    /// A walk over a..b.
    #[inline]
    pub fn iter(&self, a: u64, b: u64) -> Result<Iter<'_>, Refusal> {
        self.view().iter(a, b)
    }

    /// One step of a walk, as [`View::next`] takes it. Values may be pushed between the steps.
    #[inline]
    pub fn next(&self, cursor: &mut Cursor) -> Result<Option<u64>, Refusal> {
        self.view().next(cursor)
    }

    /// The range of values from the one at a position to the next one, or to the target length.
    #[inline]
    pub fn target_range(&self, position: u64, target_length: u64) -> Result<(u64, u64), Refusal> {
        self.view().target_range(position, target_length)
    }

    /// The leftmost position where a value would be ordered.
    #[inline]
    pub fn bisect_left(&self, value: u64) -> Result<u64, Refusal> {
        self.view().bisect_left(value)
    }

    /// The same, raised to at least a and lowered to at most b.
    #[inline]
    pub fn bisect_range_left(&self, a: u64, b: u64, value: u64) -> Result<u64, Refusal> {
        self.view().bisect_range_left(a, b, value)
    }

    /// Whether the tables are well formed.
    pub fn audit(&self) -> Verdict {
        self.view().audit()
    }
}
