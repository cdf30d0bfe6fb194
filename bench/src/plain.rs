//! A plain vector of the values.

use crate::index::{mix, Engine, Reader};

pub struct Plain(pub Vec<u64>);

impl Engine for Plain {
    /// Keeps its room.
    fn empty(&mut self) {
        self.0.clear();
    }

    fn push(&mut self, value: u64) -> u64 {
        self.0.push(value);
        self.0.len() as u64 - 1
    }

    fn size(&self) -> u64 {
        8 * self.0.len() as u64
    }

    fn reader(&mut self) -> impl Reader {
        self.0.as_slice()
    }
}

impl Reader for &[u64] {
    fn get(&mut self, position: u64) -> u64 {
        self[position as usize]
    }

    fn bisect_left(&mut self, value: u64) -> u64 {
        self.partition_point(|&entry| entry < value) as u64
    }

    fn get_range(&mut self, a: u64, b: u64, out: &mut Vec<u64>) {
        let values = &self[a as usize..b as usize];
        out[..values.len()].copy_from_slice(values);
    }

    fn walk(&mut self, a: u64, b: u64) -> u64 {
        self[a as usize..b as usize].iter().fold(0, |sum, &value| mix(sum, value))
    }
}
