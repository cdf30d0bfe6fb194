//! The original, whatever its block size, with its errors and panics as things that can be compared.

use std::cell::Cell;
use std::panic::{self, catch_unwind, AssertUnwindSafe};

use anyhow::Error;

/// What a call came to: values, a refusal by document 01's number, the original's error or its panic.
#[derive(Clone, Debug, PartialEq, Eq)]
pub enum Said {
    Values(Vec<u64>),
    Refused(u64),
    Error(String),
    Panic(String),
}

impl std::fmt::Display for Said {
    fn fmt(&self, f: &mut std::fmt::Formatter) -> std::fmt::Result {
        match self {
            Said::Values(values) => write!(f, "{values:?}"),
            Said::Refused(number) => write!(f, "refused {number}"),
            Said::Error(text) => write!(f, "error: {text}"),
            Said::Panic(text) => write!(f, "panic: {text}"),
        }
    }
}

/// One call. Lists and walks are put side by side as a whole.
#[derive(Clone, Copy, Debug, PartialEq, Eq, PartialOrd, Ord)]
pub enum Call {
    Push(u64),
    Length,
    Size,
    Get(u64),
    GetRange(u64, u64),
    Iter(u64, u64),
    TargetRange(u64, u64),
    BisectLeft(u64),
    BisectRangeLeft(u64, u64, u64),
}

impl std::fmt::Display for Call {
    fn fmt(&self, f: &mut std::fmt::Formatter) -> std::fmt::Result {
        match self {
            Call::Push(v) => write!(f, "push({v})"),
            Call::Length => write!(f, "length"),
            Call::Size => write!(f, "size"),
            Call::Get(p) => write!(f, "get({p})"),
            Call::GetRange(a, b) => write!(f, "get_range({a}..{b})"),
            Call::Iter(a, b) => write!(f, "iter({a}..{b})"),
            Call::TargetRange(p, t) => write!(f, "target_range({p}, {t})"),
            Call::BisectLeft(v) => write!(f, "bisect_left({v})"),
            Call::BisectRangeLeft(a, b, v) => write!(f, "bisect_range_left({a}..{b}, {v})"),
        }
    }
}

/// The original with any block size.
pub trait Original {
    fn block(&self) -> usize;
    fn ask(&mut self, call: Call) -> Said;
    /// Opens an iterator, to be called for its steps: each gives a value, or none when it is done.
    fn steps(&mut self, start: u64, end: u64) -> Box<dyn FnMut() -> Said>;
    /// The bytes of starts, bases, offsets, widths, data.
    fn tables(&self) -> [Vec<u8>; 5];
    /// The entries of the same five.
    fn entries(&self) -> [Vec<u64>; 5] {
        let words = |table: Vec<u8>| table.chunks_exact(8).map(|word| u64::from_le_bytes(word.try_into().unwrap())).collect();
        let bytes = |table: Vec<u8>| table.into_iter().map(u64::from).collect();
        let [starts, bases, offsets, widths, data] = self.tables();
        [words(starts), words(bases), words(offsets), bytes(widths), bytes(data)]
    }
    /// Did the last `access` to the data return less than was asked? Asking forgets it.
    fn cut_short(&self) -> bool;
}

/// The block sizes that are run.
pub const BLOCKS: [usize; 3] = [16, 64, 4096];

/// A fresh original.
pub fn open(block: usize, minimum: u64) -> Box<dyn Original> {
    match block {
        16 => Box::new(block16::Index::open(minimum).unwrap()),
        64 => Box::new(block64::Index::open(minimum).unwrap()),
        4096 => Box::new(block4096::Index::open(minimum).unwrap()),
        _ => panic!("no build for blocks of {block}"),
    }
}

macro_rules! originals {
    ($($build:ident),*) => {$(
        impl Original for $build::Index {
            fn block(&self) -> usize {
                $build::BLOCK
            }

            fn ask(&mut self, call: Call) -> Said {
                run(|| {
                    Ok(match call {
                        Call::Push(v) => vec![self.push(v)?],
                        Call::Length => same(self.lengths_and_sizes().map(|(length, _)| length)),
                        Call::Size => same(self.lengths_and_sizes().map(|(_, size)| size)),
                        Call::Get(p) => vec![self.get(p)?],
                        Call::GetRange(a, b) => self.get_range(a, b)?,
                        Call::Iter(a, b) => self.iter(a, b)?.collect::<Result<_, _>>()?,
                        Call::TargetRange(p, t) => self.target_range(p, t).map(|(start, end)| vec![start, end])?,
                        Call::BisectLeft(v) => vec![self.bisect_left(v)?],
                        Call::BisectRangeLeft(a, b, v) => vec![self.bisect_range_left(a, b, v)?],
                    })
                })
            }

            fn steps(&mut self, start: u64, end: u64) -> Box<dyn FnMut() -> Said> {
                let mut iterator = self.iter(start, end).expect("a range on the domain");
                Box::new(move || run(|| iterator.next().into_iter().collect()))
            }

            fn tables(&self) -> [Vec<u8>; 5] {
                $build::Index::tables(self)
            }

            fn cut_short(&self) -> bool {
                $build::Index::cut_short(self)
            }
        }
    )*};
}

originals!(block16, block64, block4096);

thread_local! {
    /// Is the original being asked? Its panics are outcomes, and nobody prints them.
    static ASKED: Cell<bool> = const { Cell::new(false) };
}

/// Keeps the original's panics off the screen, and no others.
pub fn keep_panics_quiet() {
    let loud = panic::take_hook();
    panic::set_hook(Box::new(move |panic| {
        if !ASKED.get() {
            loud(panic);
        }
    }));
}

/// The writer's and the reader's number, which must be one.
fn same([writer, reader]: [u64; 2]) -> Vec<u64> {
    assert_eq!(writer, reader, "writer and reader differ");
    vec![writer]
}

/// Runs a call of the original and takes its error or panic as an outcome.
fn run(call: impl FnOnce() -> Result<Vec<u64>, Error>) -> Said {
    ASKED.set(true);
    let outcome = catch_unwind(AssertUnwindSafe(call));
    ASKED.set(false);
    match outcome {
        Ok(Ok(values)) => Said::Values(values),
        Ok(Err(error)) => refusal(error.to_string()),
        Err(panic) => Said::Panic(match (panic.downcast_ref::<&str>(), panic.downcast_ref::<String>()) {
            (Some(text), _) => text.to_string(),
            (_, Some(text)) => text.clone(),
            _ => "no text".into(),
        }),
    }
}

/// The original's error for a position or range past the length counts as 5 or 6; any other stays an error.
fn refusal(error: String) -> Said {
    if !error.contains(" but index length is ") {
        Said::Error(error)
    } else if error.starts_with("requested position ") {
        Said::Refused(5)
    } else {
        Said::Refused(6)
    }
}

/// Do this build's overflows panic?
pub fn overflow_checks() -> bool {
    let less = |zero: u64| Ok(vec![std::hint::black_box(zero - 1)]);
    matches!(run(|| less(std::hint::black_box(0))), Said::Panic(_))
}
