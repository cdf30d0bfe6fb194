//! The proved code, through its C interface. Beside the answers it holds the interface to its word:
//! a refusal leaves every value behind a pointer alone.

use crate::engine::{Answer, Cursor, Engine, State, Tables, Verdict};

/// Declares functions that take the five tables, each as pointer and number of entries, between other arguments.
macro_rules! over_tables {
    ($($name:ident($($first:ident: $first_kind:ty),*; $access:tt tables; $($then:ident: $then_kind:ty),*);)*) => {
        extern "C" {
            $(fn $name(
                $($first: $first_kind,)*
                starts: *$access u64, starts_length: u64,
                bases: *$access u64, bases_length: u64,
                offsets: *$access u64, offsets_length: u64,
                widths: *$access u8, widths_length: u64,
                data: *$access u8, data_length: u64,
                $($then: $then_kind),*
            ) -> u64;)*
        }
    };
}

over_tables! {
    rotlantern_push(state: *mut u64; mut tables; value: u64, position: *mut u64);
    rotlantern_length(state: *const u64; const tables; value: *mut u64);
    rotlantern_size(state: *const u64; const tables; value: *mut u64);
    rotlantern_get(state: *const u64; const tables; position: u64, value: *mut u64);
    rotlantern_get_range(state: *const u64; const tables; start: u64, end: u64, out: *mut u64, out_length: u64, count: *mut u64);
    rotlantern_iter(state: *const u64; const tables; start: u64, end: u64, cursor: *mut u64);
    rotlantern_next(cursor: *mut u64, state: *const u64; const tables; value: *mut u64, done: *mut u64);
    rotlantern_target_range(state: *const u64; const tables; position: u64, target_length: u64, start: *mut u64, end: *mut u64);
    rotlantern_bisect_left(state: *const u64; const tables; value: u64, position: *mut u64);
    rotlantern_bisect_range_left(state: *const u64; const tables; start: u64, end: u64, value: u64, position: *mut u64);
    rotlantern_audit(state: *const u64; const tables; letter: *mut u64, segment: *mut u64);
}

extern "C" {
    fn rotlantern_open(minimum: u64, state: *mut u64) -> u64;
    fn rotlantern_open_default(state: *mut u64) -> u64;
    fn rotlantern_run_count(bytes: *const u8, length: u64, width: u64, count: *mut u64) -> u64;
    fn rotlantern_run_value(bytes: *const u8, length: u64, base: u64, width: u64, i: u64, value: *mut u64) -> u64;
}

/// Calls one of them. Every pointer comes from a live slice and goes with that slice's length.
macro_rules! call {
    ($name:ident($($first:expr),*; $tables:ident.$pointer:ident; $($then:expr),*)) => {
        unsafe {
            $name(
                $($first,)*
                $tables.starts.$pointer(), $tables.starts.len() as u64,
                $tables.bases.$pointer(), $tables.bases.len() as u64,
                $tables.offsets.$pointer(), $tables.offsets.len() as u64,
                $tables.widths.$pointer(), $tables.widths.len() as u64,
                $tables.data.$pointer(), $tables.data.len() as u64,
                $($then),*
            )
        }
    };
}

pub struct Border;

/// What stands behind a pointer before a call; a refusal must leave it.
const UNTOUCHED: u64 = 0x5A5A_A5A5_0F0F_F0F0;

/// The values behind the pointers if the call answered, else its refusal number.
fn answer<const N: usize>(call: impl FnOnce(&mut [u64; N]) -> u64) -> Answer<[u64; N]> {
    let mut values = [UNTOUCHED; N];
    match call(&mut values) {
        0 => Ok(values),
        refusal => {
            assert_eq!(values, [UNTOUCHED; N], "refusal {refusal} wrote through a pointer");
            Err(refusal)
        }
    }
}

/// The same of a call that gives one value.
fn one(call: impl FnOnce(&mut u64) -> u64) -> Answer<u64> {
    answer(|[value]| call(value)).map(|[value]| value)
}

/// The state as the interface has it.
fn words(state: &State) -> [u64; 5] {
    [state.minimum, state.length, state.segments, state.widths, state.used]
}

fn state([minimum, length, segments, widths, used]: [u64; 5]) -> State {
    State { minimum, length, segments, widths, used }
}

impl Engine for Border {
    fn open(&self, minimum: u64) -> Answer<State> {
        answer(|words| unsafe { rotlantern_open(minimum, words.as_mut_ptr()) }).map(state)
    }

    fn open_default(&self) -> Answer<State> {
        answer(|words| unsafe { rotlantern_open_default(words.as_mut_ptr()) }).map(state)
    }

    fn push(&self, lent: &mut State, tables: &mut Tables, value: u64) -> Answer<u64> {
        let mut words = words(lent);
        let answer = one(|position| call!(rotlantern_push(words.as_mut_ptr(); tables.as_mut_ptr; value, position)));
        *lent = state(words);
        answer
    }

    fn length(&self, state: &State, tables: &Tables) -> Answer<u64> {
        one(|value| call!(rotlantern_length(words(state).as_ptr(); tables.as_ptr; value)))
    }

    fn size(&self, state: &State, tables: &Tables) -> Answer<u64> {
        one(|value| call!(rotlantern_size(words(state).as_ptr(); tables.as_ptr; value)))
    }

    fn get(&self, state: &State, tables: &Tables, p: u64) -> Answer<u64> {
        one(|value| call!(rotlantern_get(words(state).as_ptr(); tables.as_ptr; p, value)))
    }

    fn get_range(&self, state: &State, tables: &Tables, a: u64, b: u64, out: &mut [u64]) -> Answer<u64> {
        let (to, room) = (out.as_mut_ptr(), out.len() as u64);
        one(|count| call!(rotlantern_get_range(words(state).as_ptr(); tables.as_ptr; a, b, to, room, count)))
    }

    fn iter(&self, state: &State, tables: &Tables, a: u64, b: u64) -> Answer<Cursor> {
        let cursor = answer(|cursor| call!(rotlantern_iter(words(state).as_ptr(); tables.as_ptr; a, b, cursor.as_mut_ptr())));
        cursor.map(|[next, end]| Cursor { next, end })
    }

    fn next(&self, cursor: &mut Cursor, state: &State, tables: &Tables) -> Answer<Option<u64>> {
        let mut lent = [cursor.next, cursor.end];
        let cursor_at = lent.as_mut_ptr();
        let answer = answer(|[value, done]| call!(rotlantern_next(cursor_at, words(state).as_ptr(); tables.as_ptr; value, done)));
        *cursor = Cursor { next: lent[0], end: lent[1] };
        answer.map(|[value, done]| match done {
            0 => Some(value),
            1 => None,
            _ => panic!("done is {done}"),
        })
    }

    fn run_count(&self, bytes: &[u8], width: u64) -> Answer<u64> {
        one(|count| unsafe { rotlantern_run_count(bytes.as_ptr(), bytes.len() as u64, width, count) })
    }

    fn run_value(&self, bytes: &[u8], base: u64, width: u64, i: u64) -> Answer<u64> {
        one(|value| unsafe { rotlantern_run_value(bytes.as_ptr(), bytes.len() as u64, base, width, i, value) })
    }

    fn target_range(&self, state: &State, tables: &Tables, p: u64, t: u64) -> Answer<(u64, u64)> {
        let ends = answer(|[start, end]| call!(rotlantern_target_range(words(state).as_ptr(); tables.as_ptr; p, t, start, end)));
        ends.map(|[start, end]| (start, end))
    }

    fn bisect_left(&self, state: &State, tables: &Tables, v: u64) -> Answer<u64> {
        one(|position| call!(rotlantern_bisect_left(words(state).as_ptr(); tables.as_ptr; v, position)))
    }

    fn bisect_range_left(&self, state: &State, tables: &Tables, a: u64, b: u64, v: u64) -> Answer<u64> {
        one(|position| call!(rotlantern_bisect_range_left(words(state).as_ptr(); tables.as_ptr; a, b, v, position)))
    }

    fn audit(&self, state: &State, tables: &Tables) -> Verdict {
        let verdict = answer(|[letter, segment]| call!(rotlantern_audit(words(state).as_ptr(); tables.as_ptr; letter, segment)));
        let [letter, segment] = verdict.expect("the audit refuses nothing");
        (letter, segment)
    }
}
