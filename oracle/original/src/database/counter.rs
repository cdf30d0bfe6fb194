//! Stand-in for Packetry's counters: a number that the writer stores and readers load. Snapshots are left out, as in document 01.

use std::sync::atomic::{AtomicU64, Ordering};

use super::stream::Store;
use crate::ground::Shared;

#[derive(Default)]
pub struct Counter(AtomicU64);

/// Makes counters; here it also keeps hold of each stream made with it, so that a run can look at the bytes.
#[derive(Default)]
pub struct CounterSet {
    streams: Vec<Shared<Store>>,
}

pub struct Snapshot;

impl Counter {
    pub fn store(&self, value: u64) {
        self.0.store(value, Ordering::Release);
    }

    pub fn load(&self) -> u64 {
        self.0.load(Ordering::Acquire)
    }

    pub fn load_at(&self, _snapshot: &Snapshot) -> u64 {
        unimplemented!("snapshots are left out")
    }
}

impl CounterSet {
    pub fn new() -> Self {
        Self::default()
    }

    pub fn new_counter(&mut self) -> Counter {
        Counter::default()
    }

    /// Keeps hold of a stream.
    pub fn keep(&mut self, store: &Shared<Store>) {
        self.streams.push(store.clone());
    }

    /// The stream that was made after `earlier` others.
    pub fn stream(&self, earlier: usize) -> &Store {
        &self.streams[earlier]
    }
}
