//! Stand-in for Packetry's streams: bytes in blocks, kept in memory, written at the end only.
//!
//! As in Packetry, one `access` never crosses the end of a block, so it may return less than was asked.

use std::mem;
use std::ops::{Deref, Range};
use std::path::Path;

use anyhow::{bail, Error};
use bytemuck::{cast_slice, cast_slice_mut};

use super::counter::{CounterSet, Snapshot};
use crate::ground::{Guarded, Number, Shared};
use crate::util::dump::Dump;

// MIN_BLOCK: the bytes in a block, a power of two from 8 on.
include!(concat!(env!("OUT_DIR"), "/block.rs"));

/// A stream: its blocks, and its length in bytes. An access or an append holds the blocks once.
#[derive(Default)]
pub struct Store {
    blocks: Guarded<Blocks>,
    length: Number,
}

/// The blocks of a stream (whole words, so that entries are aligned), and how the last access went.
#[derive(Default)]
struct Blocks {
    all: Vec<Shared<[u64]>>,
    cut_short: bool,
}

pub struct StreamWriter<const S: usize = MIN_BLOCK>(Shared<Store>);

#[derive(Clone)]
pub struct StreamReader<const S: usize = MIN_BLOCK>(Shared<Store>);

/// Bytes within one block. A later append leaves them as they are.
pub struct Data<const S: usize = MIN_BLOCK> {
    block: Shared<[u64]>,
    range: Range<usize>,
}

pub fn stream<const S: usize>(db: &mut CounterSet) -> Result<(StreamWriter<S>, StreamReader<S>), Error> {
    let store = Shared::new(Store::default());
    db.keep(&store);
    Ok((StreamWriter(store.clone()), StreamReader(store)))
}

impl Store {
    /// All bytes written so far.
    pub fn bytes(&self) -> Vec<u8> {
        let mut bytes = Vec::new();
        for block in &self.blocks.hold().all {
            bytes.extend_from_slice(cast_slice(block));
        }
        bytes.truncate(self.length.load() as usize);
        bytes
    }

    /// Did the last access return less than was asked? Asking forgets it.
    pub fn cut_short(&self) -> bool {
        mem::take(&mut self.blocks.hold().cut_short)
    }
}

impl<const S: usize> StreamWriter<S> {
    pub fn len(&self) -> u64 {
        self.0.length.load()
    }

    /// Adds bytes at the end; answers the new length.
    pub fn append(&mut self, mut bytes: &[u8]) -> Result<u64, Error> {
        let mut blocks = self.0.blocks.hold();
        while !bytes.is_empty() {
            let begin = self.len() as usize % S;
            if begin == 0 {
                blocks.all.push(vec![0; S / 8].into());
            }
            let (now, later) = bytes.split_at(bytes.len().min(S - begin));
            let block = Shared::make_mut(blocks.all.last_mut().unwrap());
            cast_slice_mut::<u64, u8>(block)[begin..begin + now.len()].copy_from_slice(now);
            self.0.length.store(self.len() + now.len() as u64);
            bytes = later;
        }
        Ok(self.len())
    }
}

impl<const S: usize> StreamReader<S> {
    pub fn len(&self) -> u64 {
        self.0.length.load()
    }

    pub fn len_at(&self, _snapshot: &Snapshot) -> u64 {
        unimplemented!("snapshots are left out")
    }

    pub const fn block_size() -> usize {
        S
    }

    /// The bytes from the range's start to its end or the block's, whichever comes first. An empty range has none.
    pub fn access(&mut self, range: &Range<u64>) -> Result<Data<S>, Error> {
        if range.start > range.end || range.end > self.len() {
            bail!("store: asked for {range:?} of {}", self.len());
        }
        let begin = range.start as usize % S;
        let asked = (range.end - range.start) as usize;
        let got = asked.min(S - begin);
        let mut blocks = self.0.blocks.hold();
        blocks.cut_short = got < asked;
        let block = match blocks.all.get(range.start as usize / S) {
            Some(block) => block.clone(),
            None => Shared::new([]),
        };
        // Only an empty range at the very end can lie in no block.
        let range = if got == 0 { 0..0 } else { begin..begin + got };
        Ok(Data { block, range })
    }
}

impl<const S: usize> Deref for Data<S> {
    type Target = [u8];

    fn deref(&self) -> &[u8] {
        &cast_slice(&self.block)[self.range.clone()]
    }
}

impl<const S: usize> Dump for StreamReader<S> {
    fn dump(&self, _dest: &Path) -> Result<(), Error> {
        unimplemented!("dumps are left out")
    }

    fn restore(_db: &mut CounterSet, _src: &Path) -> Result<Self, Error> {
        unimplemented!("dumps are left out")
    }
}
