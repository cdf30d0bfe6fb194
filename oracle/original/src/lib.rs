//! The original compact index, compiled unchanged, over stand-ins for the parts of Packetry that it is built on.
//!
//! `database::{compact_index, index_stream, data_stream}` and `util::id` are the original's own files. Everything else here is ours:
//! `database::{counter, stream}`, `util::{dump, fmt_count, fmt_size}`, the two grounds that streams are shared on, and `Index` below, which
//! only calls the original.

// The original has `len` without `is_empty`, and asks the same of its streams.
#![allow(clippy::len_without_is_empty)]

// The package's name says which of the two.
#[cfg_attr(locked, path = "locked.rs")]
#[cfg_attr(not(locked), path = "light.rs")]
mod ground;

pub mod database {
    pub mod counter;
    pub mod stream;
    include!(concat!(env!("OUT_DIR"), "/database.rs"));
    pub use counter::{Counter, CounterSet, Snapshot};
}

pub mod util {
    pub mod dump;
    include!(concat!(env!("OUT_DIR"), "/util.rs"));

    /// Used by the original's `Display` only, which nobody calls here.
    pub fn fmt_count(count: u64) -> String {
        count.to_string()
    }

    /// Used by the original's `Display` only, which nobody calls here.
    pub fn fmt_size(size: u64) -> String {
        size.to_string()
    }
}

use anyhow::{bail, Error};
use database::compact_index::{compact_index, CompactReader, CompactReaderOps, CompactWriter};
use database::CounterSet;
use util::id::Id;

/// What positions and values are to the original: two kinds of `Id`.
#[derive(Clone, Copy)]
pub struct P;
#[derive(Clone, Copy)]
pub struct V;

/// The bytes in a block of this build.
pub const BLOCK: usize = database::stream::MIN_BLOCK;

/// A writer of the original, whatever its minimum width.
trait Writer {
    fn push(&mut self, value: u64) -> Result<u64, Error>;
    fn length_and_size(&self) -> (u64, u64);
}

impl<const W: usize> Writer for CompactWriter<Id<P>, Id<V>, W> {
    fn push(&mut self, value: u64) -> Result<u64, Error> {
        Ok(CompactWriter::push(self, value.into())?.value)
    }

    fn length_and_size(&self) -> (u64, u64) {
        (self.len(), self.size())
    }
}

/// The original's writer and reader over one set of streams. Each method is one call of the original.
pub struct Index {
    streams: CounterSet,
    writer: Box<dyn Writer>,
    reader: CompactReader<Id<P>, Id<V>>,
}

impl Index {
    /// A fresh index. The original takes its minimum width as a constant, so each one that is run stands here.
    pub fn open(minimum: u64) -> Result<Self, Error> {
        match minimum {
            0 => Self::with::<0>(),
            1 => Self::with::<1>(),
            2 => Self::with::<2>(),
            3 => Self::with::<3>(),
            4 => Self::with::<4>(),
            5 => Self::with::<5>(),
            6 => Self::with::<6>(),
            7 => Self::with::<7>(),
            8 => Self::with::<8>(),
            9 => Self::with::<9>(),
            _ => bail!("no build for minimum {minimum}"),
        }
    }

    fn with<const W: usize>() -> Result<Self, Error> {
        let mut streams = CounterSet::new();
        let (writer, reader) = compact_index::<Id<P>, Id<V>, W>(&mut streams)?;
        Ok(Index { streams, writer: Box::new(writer), reader })
    }

    pub fn push(&mut self, value: u64) -> Result<u64, Error> {
        self.writer.push(value)
    }

    /// Length and size, as the writer and as the reader have them.
    pub fn lengths_and_sizes(&self) -> [(u64, u64); 2] {
        [self.writer.length_and_size(), (self.reader.len(), self.reader.size())]
    }

    pub fn get(&mut self, position: u64) -> Result<u64, Error> {
        Ok(self.reader.get(position.into())?.value)
    }

    pub fn get_range(&mut self, start: u64, end: u64) -> Result<Vec<u64>, Error> {
        let values = self.reader.get_range(&(start.into()..end.into()))?;
        Ok(values.into_iter().map(u64::from).collect())
    }

    pub fn iter(&mut self, start: u64, end: u64) -> Result<impl Iterator<Item = Result<u64, Error>>, Error> {
        Ok(self.reader.iter(&(start.into()..end.into()))?.map(|value| Ok(value?.value)))
    }

    pub fn target_range(&mut self, position: u64, target_length: u64) -> Result<(u64, u64), Error> {
        let range = self.reader.target_range(position.into(), target_length)?;
        Ok((range.start.value, range.end.value))
    }

    pub fn bisect_left(&mut self, value: u64) -> Result<u64, Error> {
        Ok(self.reader.bisect_left(&value.into())?.value)
    }

    pub fn bisect_range_left(&mut self, start: u64, end: u64, value: u64) -> Result<u64, Error> {
        Ok(self.reader.bisect_range_left(&(start.into()..end.into()), &value.into())?.value)
    }

    /// The bytes of the five streams, in the order in which the original opens them: starts, bases, offsets, widths, data.
    pub fn tables(&self) -> [Vec<u8>; 5] {
        std::array::from_fn(|table| self.streams.stream(table).bytes())
    }

    /// Did the last `access` to the data return less than was asked of it? Asking forgets it.
    pub fn cut_short(&self) -> bool {
        self.streams.stream(4).cut_short()
    }
}
