//! What is compared: document 01's entry points as one trait. The model and the proved code both implement it.

/// The five numbers of the state.
#[derive(Clone, Copy, Debug, Default, PartialEq, Eq)]
pub struct State {
    pub minimum: u64,
    pub length: u64,
    pub segments: u64,
    pub widths: u64,
    pub used: u64,
}

/// The five tables that a caller lends.
#[derive(Clone, Debug, Default, PartialEq, Eq)]
pub struct Tables {
    pub starts: Vec<u64>,
    pub bases: Vec<u64>,
    pub offsets: Vec<u64>,
    pub widths: Vec<u8>,
    pub data: Vec<u8>,
}

/// A walk's next position and its end.
#[derive(Clone, Copy, Debug, Default, PartialEq, Eq)]
pub struct Cursor {
    pub next: u64,
    pub end: u64,
}

/// An answer, or document 01's refusal number.
pub type Answer<T> = Result<T, u64>;

/// The audit's verdict: the broken rule's letter (1 for A to 6 for F, 0 for well formed) and the segment.
pub type Verdict = (u64, u64);

/// Document 01's entry points. A refusal must leave `state`, `tables`, `cursor` and `out` as they were.
pub trait Engine {
    fn open(&self, minimum: u64) -> Answer<State>;
    fn open_default(&self) -> Answer<State>;
    /// Answers the new value's position.
    fn push(&self, state: &mut State, tables: &mut Tables, value: u64) -> Answer<u64>;
    fn length(&self, state: &State, tables: &Tables) -> Answer<u64>;
    fn size(&self, state: &State, tables: &Tables) -> Answer<u64>;
    fn get(&self, state: &State, tables: &Tables, position: u64) -> Answer<u64>;
    /// Answers how many values it put into `out`.
    fn get_range(&self, state: &State, tables: &Tables, start: u64, end: u64, out: &mut [u64]) -> Answer<u64>;
    fn iter(&self, state: &State, tables: &Tables, start: u64, end: u64) -> Answer<Cursor>;
    /// Answers the next value, or none when the walk is done.
    fn next(&self, cursor: &mut Cursor, state: &State, tables: &Tables) -> Answer<Option<u64>>;
    fn run_count(&self, bytes: &[u8], width: u64) -> Answer<u64>;
    fn run_value(&self, bytes: &[u8], base: u64, width: u64, i: u64) -> Answer<u64>;
    /// Answers the start and the end.
    fn target_range(&self, state: &State, tables: &Tables, position: u64, target_length: u64) -> Answer<(u64, u64)>;
    fn bisect_left(&self, state: &State, tables: &Tables, value: u64) -> Answer<u64>;
    fn bisect_range_left(&self, state: &State, tables: &Tables, start: u64, end: u64, value: u64) -> Answer<u64>;
    fn audit(&self, state: &State, tables: &Tables) -> Verdict;
}
