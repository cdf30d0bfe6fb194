//! The original, unchanged, over stand-ins of ours for Packetry's streams and counters (see oracle/original), on both grounds.

use crate::index::{mix, Engine, Reader};

/// The original on one ground, by the packages that it is built in.
///
/// Pushes go to blocks of 4,096 bytes, allocated and cleared as they come. Reads go to blocks of 8 MiB, so that every table
/// is one block: there each access returns all that was asked, as the original's bisect takes for granted.
macro_rules! original {
    ($name:ident, $pushed:ident, $read:ident) => {
        pub struct $name {
            pushed: $pushed::Index,
            read: $read::Index,
        }

        impl $name {
            pub fn new(values: &[u64]) -> Self {
                let mut read = $read::Index::open(1).unwrap();
                for &value in values {
                    read.push(value).unwrap();
                }
                $name { pushed: $pushed::Index::open(1).unwrap(), read }
            }
        }

        impl Engine for $name {
            fn empty(&mut self) {
                self.pushed = $pushed::Index::open(1).unwrap();
            }

            fn push(&mut self, value: u64) -> u64 {
                self.pushed.push(value).unwrap()
            }

            fn size(&self) -> u64 {
                let [(_, size), _] = self.pushed.lengths_and_sizes();
                size
            }

            fn reader(&mut self) -> impl Reader {
                &mut self.read
            }
        }

        impl Reader for &mut $read::Index {
            fn get(&mut self, position: u64) -> u64 {
                $read::Index::get(self, position).unwrap()
            }

            fn bisect_left(&mut self, value: u64) -> u64 {
                $read::Index::bisect_left(self, value).unwrap()
            }

            /// The original answers a vector of its own.
            fn get_range(&mut self, a: u64, b: u64, out: &mut Vec<u64>) {
                *out = $read::Index::get_range(self, a, b).unwrap();
            }

            fn walk(&mut self, a: u64, b: u64) -> u64 {
                let values = self.iter(a, b).unwrap();
                values.fold(0, |sum, value| mix(sum, value.unwrap()))
            }
        }
    };
}

original!(Light, block4096, block8388608);
original!(Locked, locked4096, locked8388608);
