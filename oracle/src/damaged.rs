//! The runs that no original can judge: an engine against the model, on damaged states and tables, any number anywhere.
//!
//! Each case makes every call once or more. What is compared is the answer and everything lent: state, cursor, every entry of every
//! table and of the output, before and after.

use std::collections::BTreeMap;
use std::fmt::Debug;

use crate::chance::Chance;
use crate::engine::{Answer, Cursor, Engine, State, Tables};
use crate::model::Model;

/// Every refusal number that an entry point can give, 0 standing for an answer (for the audit: every letter).
const GIVEN: [(&str, &[u64]); 15] = [
    ("open", &[0, 11]),
    ("open_default", &[0]),
    ("push", &[0, 1, 2, 3, 4, 9, 10]),
    ("length", &[0, 9]),
    ("size", &[0, 9]),
    ("get", &[0, 5, 9, 10]),
    ("get_range", &[0, 6, 7, 8, 9, 10]),
    ("iter", &[0, 6, 7, 9]),
    ("next", &[0, 5, 9, 10]),
    ("run_count", &[0, 10]),
    ("run_value", &[0, 5, 10]),
    ("target_range", &[0, 5, 9, 10]),
    ("bisect_left", &[0, 9, 10]),
    ("bisect_range_left", &[0, 6, 7, 9, 10]),
    ("audit", &[0, 1, 2, 3, 4, 5, 6]),
];

#[derive(Default)]
pub struct Damaged {
    cases: u64,
    calls: u64,
    differ: u64,
    first: Option<String>,
    given: BTreeMap<(&'static str, u64), u64>,
}

impl Damaged {
    pub fn differ(&self) -> u64 {
        self.differ
    }

    /// Runs so many cases, openings and the limits.
    pub fn run(&mut self, engine: &dyn Engine, cases: u64, chance: &mut Chance) {
        self.openings(engine, chance);
        self.cases(engine, cases, chance);
        self.segment_limit(engine);
        self.data_limit(engine);
    }

    /// Runs so many cases.
    pub fn cases(&mut self, engine: &dyn Engine, cases: u64, chance: &mut Chance) {
        for _ in 0..cases {
            let (state, tables) = index_by_chance(chance);
            self.case(engine, state, tables, chance);
        }
    }

    /// Prints the summary. Is all equal, and has every refusal been given?
    pub fn report(&self) -> bool {
        println!("damaged cases {}, calls {}, differ {}", self.cases, self.calls, self.differ);
        if let Some(first) = &self.first {
            println!("  FAILED, the first: {first}");
        }
        let mut good = self.differ == 0;
        for (name, numbers) in GIVEN {
            let counts: Vec<u64> = numbers.iter().map(|&number| *self.given.get(&(name, number)).unwrap_or(&0)).collect();
            let line: Vec<String> = numbers.iter().zip(&counts).map(|(number, count)| format!("{number}: {count}")).collect();
            println!("  {name} {}", line.join(", "));
            if counts.contains(&0) {
                println!("  FAILED: {name} never gave one of these");
                good = false;
            }
        }
        good
    }

    /// Counts one call and what it gave.
    fn compare<T: PartialEq + Debug>(&mut self, name: &'static str, given: u64, ours: T, model: T, input: impl FnOnce() -> String) {
        self.calls += 1;
        *self.given.entry((name, given)).or_default() += 1;
        if ours != model {
            self.differ += 1;
            self.first.get_or_insert_with(|| format!("{name} of {}\n    ours:  {ours:?}\n    model: {model:?}", input()));
        }
    }

    fn openings(&mut self, engine: &dyn Engine, chance: &mut Chance) {
        let minimums: Vec<u64> = (0..=20).chain((0..1000).map(|_| chance.number())).collect();
        for minimum in minimums {
            let model = Model.open(minimum);
            self.compare("open", number(&model), engine.open(minimum), model, || minimum.to_string());
        }
        let model = Model.open_default();
        self.compare("open_default", number(&model), engine.open_default(), model, String::new);
    }

    /// Every call on one state with its tables.
    fn case(&mut self, engine: &dyn Engine, state: State, mut tables: Tables, chance: &mut Chance) {
        self.cases += 1;
        let before = tables.clone();
        let mut pushed = tables.clone();
        self.push(engine, state, &mut tables, &mut pushed, near_base(&state, &before, chance));
        tables.clone_from(&before);
        self.reads(engine, &state, &tables, chance);
        self.range(engine, &state, &tables, chance);
        self.step(engine, &state, &tables, chance);
        self.run_calls(engine, &tables.data, chance);
        let input = || format!("{state:?} {before:?}");
        self.compare("audit", Model.audit(&state, &before).0, engine.audit(&state, &tables), Model.audit(&state, &before), input);
        // No read may write to what it was lent.
        self.compare("reads", 0, &tables, &before, input);
    }

    /// A push by each on its own copy; what is left is compared whole.
    fn push(&mut self, engine: &dyn Engine, state: State, ours: &mut Tables, model: &mut Tables, value: u64) {
        let before = (self.first.is_none()).then(|| ours.clone());
        let (mut our_state, mut model_state) = (state, state);
        let our_answer = engine.push(&mut our_state, ours, value);
        let model_answer = Model.push(&mut model_state, model, value);
        let input = || format!("{value} on {state:?} {before:?}");
        self.compare("push", number(&model_answer), (our_answer, our_state, &*ours), (model_answer, model_state, &*model), input);
    }

    fn reads(&mut self, engine: &dyn Engine, state: &State, tables: &Tables, chance: &mut Chance) {
        let (p, q) = (near(state.length, chance), near(state.length, chance));
        let v = near_base(state, tables, chance);
        let t = chance.number();
        let input = || format!("positions {p} {q} value {v} target {t} on {state:?} {tables:?}");
        macro_rules! same {
            ($name:ident($($argument:expr),*)) => {
                let model = Model.$name(state, tables $(, $argument)*);
                self.compare(stringify!($name), number(&model), engine.$name(state, tables $(, $argument)*), model, input);
            };
        }
        same!(length());
        same!(size());
        same!(get(p));
        same!(get(q));
        same!(target_range(p, t));
        same!(bisect_left(v));
        same!(bisect_left(t));
        same!(bisect_range_left(p, q, v));
        same!(bisect_range_left(p.min(q), p.max(q), v));
        same!(iter(p, q));
    }

    /// get_range into an output that may be too short or too long.
    fn range(&mut self, engine: &dyn Engine, state: &State, tables: &Tables, chance: &mut Chance) {
        let (p, q) = (near(state.length, chance), near(state.length, chance));
        for (a, b) in [(p, q), (p.min(q), p.max(q).min(state.length))] {
            let room = b.wrapping_sub(a).wrapping_add(chance.below(6)).saturating_sub(2).min(24);
            let spare: Vec<u64> = (0..room).map(|_| chance.any()).collect();
            let (mut our_out, mut model_out) = (spare.clone(), spare);
            let ours = engine.get_range(state, tables, a, b, &mut our_out);
            let model = Model.get_range(state, tables, a, b, &mut model_out);
            let input = || format!("{a}..{b} into {room} on {state:?} {tables:?}");
            self.compare("get_range", number(&model), (ours, our_out), (model, model_out), input);
        }
    }

    /// A step of a cursor that holds any numbers.
    fn step(&mut self, engine: &dyn Engine, state: &State, tables: &Tables, chance: &mut Chance) {
        let cursor = Cursor { next: near(state.length, chance), end: near(state.length, chance) };
        let (mut our_cursor, mut model_cursor) = (cursor, cursor);
        let ours = engine.next(&mut our_cursor, state, tables);
        let model = Model.next(&mut model_cursor, state, tables);
        let input = || format!("{cursor:?} on {state:?} {tables:?}");
        self.compare("next", number(&model), (ours, our_cursor), (model, model_cursor), input);
    }

    /// A delta run over any bytes.
    fn run_calls(&mut self, engine: &dyn Engine, bytes: &[u8], chance: &mut Chance) {
        let width = if chance.once_in(4) { chance.number() } else { chance.below(10) };
        let base = chance.number();
        let i = if chance.once_in(4) { chance.number() } else { chance.below(8) };
        let input = || format!("base {base} width {width} i {i} over {bytes:?}");
        let model = Model.run_count(bytes, width);
        self.compare("run_count", number(&model), engine.run_count(bytes, width), model, input);
        let model = Model.run_value(bytes, base, width, i);
        self.compare("run_value", number(&model), engine.run_value(bytes, base, width, i), model, input);
    }

    /// One segment below the limit, at it, and above it, in tables that have room for more; the last with a width and without one.
    fn segment_limit(&mut self, engine: &dyn Engine) {
        let tables = Tables {
            starts: (0..65_600).map(|s| 2 * s).collect(),
            bases: (0..65_600).map(|s| s << 8).collect(),
            offsets: (0..65_600).collect(),
            widths: vec![1; 65_600],
            data: vec![0; 65_600],
        };
        for (segments, widths) in (65_534..=65_536).flat_map(|segments| [(segments, segments), (segments, segments - 1)]) {
            let state = State { minimum: 1, length: segments + widths, segments, widths, used: widths };
            for value in [u64::MAX, (segments - 1) << 8] {
                self.push(engine, state, &mut tables.clone(), &mut tables.clone(), value);
            }
            let model = Model.audit(&state, &tables);
            self.compare("audit", model.0, engine.audit(&state, &tables), model, || format!("{segments} segments"));
        }
    }

    /// Used up to the largest count of data bytes and past it, in data that have room for more. Only the data's end is compared.
    fn data_limit(&mut self, engine: &dyn Engine) {
        const MOST: u64 = 4_294_967_295;
        let tables = || Tables { starts: vec![0], bases: vec![7], offsets: vec![0], widths: vec![1], data: vec![0; MOST as usize + 9] };
        let (mut ours, mut model) = (tables(), tables());
        for used in [MOST - 2, MOST - 1, MOST, MOST + 1, MOST + 9] {
            let state = State { minimum: 1, length: 2, segments: 1, widths: 1, used };
            let (mut our_state, mut model_state) = (state, state);
            let our_answer = engine.push(&mut our_state, &mut ours, 8);
            let model_answer = Model.push(&mut model_state, &mut model, 8);
            let end = MOST as usize - 64..;
            let (ours, model) = (&ours.data[end.clone()], &model.data[end]);
            let input = || format!("8 on {state:?}");
            self.compare("push", number(&model_answer), (our_answer, our_state, ours), (model_answer, model_state, model), input);
        }
    }
}

/// 0 for an answer, else the refusal number.
fn number<T>(answer: &Answer<T>) -> u64 {
    *answer.as_ref().err().unwrap_or(&0)
}

/// Most often a number up to just past this one.
fn near(count: u64, chance: &mut Chance) -> u64 {
    if chance.once_in(8) {
        chance.number()
    } else {
        chance.below(count.min(40) + 3)
    }
}

/// Most often a value near an entry of bases.
fn near_base(state: &State, tables: &Tables, chance: &mut Chance) -> u64 {
    let last = state.segments.min(tables.bases.len() as u64) as usize;
    match tables.bases[..last].last() {
        Some(&base) if chance.once_in(2) => base.wrapping_add(chance.number() >> chance.of(&[0, 40, 56])),
        Some(_) if !chance.once_in(4) => chance.of(&tables.bases).wrapping_add(chance.below(300)).wrapping_sub(2),
        _ => chance.number(),
    }
}

/// A state with its tables: an index made by pushes and then damaged, or counts that hold over any entries.
fn index_by_chance(chance: &mut Chance) -> (State, Tables) {
    let (mut state, mut tables) = if chance.once_in(3) { any_entries(chance) } else { pushed(chance) };
    for _ in 0..chance.of(&[0, 1, 1, 2, 2, 3, 5]) {
        damage(&mut state, &mut tables, chance);
    }
    (state, tables)
}

/// An index of a few values in tables with little room to spare.
fn pushed(chance: &mut Chance) -> (State, Tables) {
    let mut state = State { minimum: if chance.once_in(2) { 1 } else { 1 + chance.below(8) }, ..State::default() };
    let room = chance.below(7);
    let mut words = || (0..room + chance.below(2)).map(|_| chance.number()).collect::<Vec<_>>();
    let (starts, bases, offsets) = (words(), words(), words());
    let mut bytes = |room| (0..room).map(|_| chance.any() as u8).collect::<Vec<_>>();
    let (widths, data) = (bytes(room), bytes(4 * room));
    let mut tables = Tables { starts, bases, offsets, widths, data };
    let mut value = chance.number() >> chance.below(64);
    for _ in 0..chance.below(14) {
        value = value.saturating_add(chance.number() >> chance.of(&[0, 40, 48, 56, 56, 60]));
        let _ = Model.push(&mut state, &mut tables, value);
    }
    (state, tables)
}

/// Counts that keep the counts rule, and any entries.
fn any_entries(chance: &mut Chance) -> (State, Tables) {
    let segments = 1 + chance.below(5);
    let widths = segments - chance.below(2);
    let used = chance.below(30);
    let length = segments + chance.below(used + 1);
    let small = chance.once_in(2);
    let mut words = || (0..segments).map(|_| if small { chance.below(length + 2) } else { chance.number() }).collect::<Vec<_>>();
    let (starts, bases, offsets) = (words(), words(), words());
    let minimum = 1 + chance.below(3);
    let widths_table = (0..widths).map(|_| (minimum + chance.below(4)) as u8).collect();
    let data = (0..used).map(|_| chance.of(&[0, 1, 255, chance_byte(length)])).collect();
    (State { minimum, length, segments, widths, used }, Tables { starts, bases, offsets, widths: widths_table, data })
}

fn chance_byte(number: u64) -> u8 {
    number.wrapping_mul(151) as u8
}

/// Changes one number.
fn damage(state: &mut State, tables: &mut Tables, chance: &mut Chance) {
    let State { minimum, length, segments, widths, used } = state;
    let field = chance.of(&[0, 1, 2, 3, 4]);
    let field = [minimum, length, segments, widths, used].into_iter().nth(field).unwrap();
    let table = chance.of(&[0, 1, 2]);
    let table = [&mut tables.starts, &mut tables.bases, &mut tables.offsets].into_iter().nth(table).unwrap();
    let bytes = if chance.once_in(2) { &mut tables.widths } else { &mut tables.data };
    match chance.below(10) {
        0 => *field = chance.number(),
        1 => *field = field.wrapping_add(1),
        2 => *field = field.wrapping_sub(1),
        3 => state.length = state.segments.saturating_add(chance.below(state.used.min(40) + 2)),
        4 if chance.once_in(2) => _ = table.pop(),
        4 => _ = bytes.pop(),
        5 | 6 if !bytes.is_empty() => {
            let at = chance.below(bytes.len() as u64) as usize;
            bytes[at] = if chance.once_in(2) { chance.below(10) as u8 } else { chance.any() as u8 };
        }
        7.. if !table.is_empty() => {
            let at = chance.below(table.len() as u64) as usize;
            table[at] = match chance.below(4) {
                0 => table[at].wrapping_add(1),
                1 => table[at].wrapping_sub(1),
                2 => chance.of(table),
                _ => chance.number(),
            };
        }
        _ => {}
    }
}
