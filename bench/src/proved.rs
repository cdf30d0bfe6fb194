//! The proved code, called through its border.

use rotlantern::{push, Cursor, State, Tables, TablesMut, Verdict, View};

use crate::index::{mix, Engine, Reader};

/// Tables with room for a list of values, allocated once and written over by every round of pushes.
pub struct Lent {
    pub starts: Vec<u64>,
    pub bases: Vec<u64>,
    pub offsets: Vec<u64>,
    pub widths: Vec<u8>,
    pub data: Vec<u8>,
}

impl Lent {
    /// Room for n values.
    pub fn new(n: usize) -> Self {
        let segments = n.min(65_535);
        Lent {
            starts: vec![0; segments],
            bases: vec![0; segments],
            offsets: vec![0; segments],
            widths: vec![0; segments],
            data: vec![0; 8 * n],
        }
    }

    pub fn tables(&self) -> Tables<'_> {
        let Lent { starts, bases, offsets, widths, data } = self;
        Tables { starts, bases, offsets, widths, data }
    }

    pub fn tables_mut(&mut self) -> TablesMut<'_> {
        let Lent { starts, bases, offsets, widths, data } = self;
        TablesMut { starts, bases, offsets, widths, data }
    }
}

pub struct Proved {
    state: State,
    lent: Lent,
}

impl Proved {
    pub fn new(n: usize) -> Self {
        Proved { state: State::open_default(), lent: Lent::new(n) }
    }

    fn view(&self) -> View<'_> {
        View { state: self.state, tables: self.lent.tables() }
    }
}

impl Engine for Proved {
    fn empty(&mut self) {
        self.state = State::open_default();
    }

    fn push(&mut self, value: u64) -> u64 {
        push(&mut self.state, self.lent.tables_mut(), value).unwrap()
    }

    fn size(&self) -> u64 {
        self.view().size().unwrap()
    }

    fn reader(&mut self) -> impl Reader {
        self.view()
    }

    fn lent(&mut self) -> Option<&mut Lent> {
        Some(&mut self.lent)
    }
}

impl Reader for View<'_> {
    fn get(&mut self, position: u64) -> u64 {
        View::get(self, position).unwrap()
    }

    fn bisect_left(&mut self, value: u64) -> u64 {
        View::bisect_left(self, value).unwrap()
    }

    fn get_range(&mut self, a: u64, b: u64, out: &mut Vec<u64>) {
        View::get_range(self, a, b, out).unwrap();
    }

    fn walk(&mut self, a: u64, b: u64) -> u64 {
        let values = self.iter(a, b).unwrap();
        values.fold(0, |sum, value| mix(sum, value.unwrap()))
    }

    fn steps(&mut self, a: u64, b: u64) -> u64 {
        let mut cursor = Cursor { next: a, end: b };
        let mut sum = 0;
        while let Some(value) = self.next(&mut cursor).unwrap() {
            sum = mix(sum, value);
        }
        sum
    }

    fn audit(&mut self) -> Option<bool> {
        Some(View::audit(self) == Verdict::WellFormed)
    }
}
