//! Single inputs with what must come out of them: document 01's cases, and the smallest input of each difference.

use crate::engine::{Engine, State, Tables};
use crate::original::{self, overflow_checks, Call, Original};
use crate::pair::{ask, spare_tables};

/// Calls made one after the other on an index, and what must come out: of the original where overflows panic, of the original where
/// they wrap, and of ours.
struct Difference {
    block: usize,
    values: Vec<u64>,
    minimum: u64,
    calls: &'static [(Call, &'static str, &'static str, &'static str)],
}

/// Counts what came out as it must.
#[derive(Default)]
pub struct Pinned {
    right: u64,
    wrong: u64,
    quiet: bool,
}

impl Pinned {
    /// Counts, and prints nothing.
    pub fn quiet() -> Self {
        Pinned { quiet: true, ..Self::default() }
    }

    pub fn wrong(&self) -> u64 {
        self.wrong
    }

    /// Prints the summary. Did all come out as they must?
    pub fn report(&self) -> bool {
        println!("pinned {}, wrong {}", self.right + self.wrong, self.wrong);
        self.wrong == 0
    }

    pub fn run(&mut self, engine: &dyn Engine) {
        self.cases_of_01(engine);
        self.unsorted_starts(engine);
        for difference in differences() {
            self.difference(engine, &difference);
        }
        self.minimums(engine);
        self.no_room(engine);
    }

    fn expect(&mut self, what: &str, said: &str, must: &str) {
        if said == must {
            self.right += 1;
        } else {
            self.wrong += 1;
            if !self.quiet {
                println!("FAILED: {what}: {said}, but must be: {must}");
            }
        }
    }

    /// W1 to W10, by the engine and by the original.
    fn cases_of_01(&mut self, engine: &dyn Engine) {
        for (name, minimum, values, lines) in CASES {
            let mut original = original::open(4096, minimum);
            let mut state = engine.open(minimum).unwrap();
            let mut tables = spare_tables(values.len() + 1);
            for &value in values {
                original.ask(Call::Push(value));
                ask(engine, &mut state, &mut tables, Call::Push(value));
            }
            for &(call, must, in_range) in lines {
                let ours = ask(engine, &mut state, &mut tables, call).to_string();
                self.expect(&format!("{name}, {call}"), &ours, must);
                if in_range {
                    self.expect(&format!("{name}, {call}, original"), &original.ask(call).to_string(), must);
                }
            }
            let must = TABLES.iter().find(|(case, _)| *case == name).map_or(String::new(), |(_, tables)| tables.to_string());
            if !must.is_empty() {
                self.expect(&format!("{name}, tables"), &written(&state, &tables), &must);
                self.expect(&format!("{name}, tables of the original"), &original_written(&*original), &must);
            }
        }
    }

    /// Unsorted starts: a walk to the next start would go astray. get_range is get at each position.
    fn unsorted_starts(&mut self, engine: &dyn Engine) {
        let mut state = State { minimum: 1, length: 4, segments: 4, widths: 4, used: 0 };
        let mut tables =
            Tables { starts: vec![0, 2, 1, 1], bases: vec![100, 200, 300, 400], offsets: vec![0; 4], widths: vec![1; 4], data: vec![] };
        for (call, must) in [(Call::GetRange(0, 2), "[100, 400]"), (Call::Get(1), "[400]"), (Call::Iter(0, 2), "[100, 400]")] {
            self.expect("unsorted starts", &ask(engine, &mut state, &mut tables, call).to_string(), must);
        }
    }

    fn difference(&mut self, engine: &dyn Engine, Difference { block, values, minimum, calls }: &Difference) {
        let mut original = original::open(*block, *minimum);
        let mut state = engine.open(*minimum).unwrap();
        let mut tables = spare_tables(values.len() + 1);
        for &value in values {
            let (rust, ours) = (original.ask(Call::Push(value)), ask(engine, &mut state, &mut tables, Call::Push(value)));
            if rust != ours {
                self.expect("a push that both take", &ours.to_string(), &rust.to_string());
            }
        }
        for (call, checked, wrapping, ours) in *calls {
            let what = format!("m {minimum}, {} values, {call}", values.len());
            let must = if overflow_checks() { checked } else { wrapping };
            self.expect(&format!("{what}, original"), &original.ask(*call).to_string(), must);
            self.expect(&what, &ask(engine, &mut state, &mut tables, *call).to_string(), ours);
        }
    }

    /// A minimum outside 1 to 8: the original has no test, and takes 0 as 1; with 9 it fails at the first delta.
    fn minimums(&mut self, engine: &dyn Engine) {
        for (minimum, width, must) in [(0, 1, "[1]"), (9, 9, "panic: range end index 9 out of range for slice of length 8")] {
            let mut original = original::open(16, minimum);
            self.expect("first push", &original.ask(Call::Push(0)).to_string(), "[0]");
            self.expect("second push", &original.ask(Call::Push(0)).to_string(), must);
            self.expect("its width", &format!("{:?}", original.entries()[3]), &format!("[{width}]"));
            self.expect("open", &format!("{:?}", engine.open(minimum)), "Err(11)");
        }
    }

    /// No room lent: the original has no tables to fill.
    fn no_room(&mut self, engine: &dyn Engine) {
        let (mut state, mut tables) = (engine.open(1).unwrap(), spare_tables(0));
        self.expect("no room", &ask(engine, &mut state, &mut tables, Call::Push(0)).to_string(), "refused 2");
        self.expect("no room, original", &original::open(16, 1).ask(Call::Push(0)).to_string(), "[0]");
    }
}

/// The entries in use, in words.
fn written(state: &State, tables: &Tables) -> String {
    let (segments, widths, used) = (state.segments as usize, state.widths as usize, state.used as usize);
    let [starts, bases, offsets] = [&tables.starts, &tables.bases, &tables.offsets].map(|table| &table[..segments]);
    format!("starts {starts:?} bases {bases:?} offsets {offsets:?} widths {:?} data {:?}", &tables.widths[..widths], &tables.data[..used])
}

/// The same of the original.
fn original_written(original: &dyn Original) -> String {
    let [starts, bases, offsets, widths, data] = original.entries();
    format!("starts {starts:?} bases {bases:?} offsets {offsets:?} widths {widths:?} data {data:?}")
}

/// A case of 01: its name, m, what is pushed, and the calls with their outcomes; the last part says whether the original is asked too.
type Case = (&'static str, u64, &'static [u64], &'static [(Call, &'static str, bool)]);

/// W1 to W10. The widths of W1 show as the bytes in use after two pushes.
const CASES: [Case; 17] = [
    ("W1 0", 1, &[0, 0], &[(Call::Size, "[26]", true)]),
    ("W1 255", 1, &[0, 255], &[(Call::Size, "[26]", true)]),
    ("W1 256", 1, &[0, 256], &[(Call::Size, "[27]", true)]),
    ("W1 65535", 1, &[0, 65_535], &[(Call::Size, "[27]", true)]),
    ("W1 65536", 1, &[0, 65_536], &[(Call::Size, "[28]", true)]),
    ("W1 2^64-1", 1, &[0, u64::MAX], &[(Call::Size, "[33]", true)]),
    ("W2", 1, &[10], &[(Call::Size, "[24]", true)]),
    ("W3", 1, &[10, 10], &[(Call::Size, "[26]", true)]),
    ("W4", 1, &[10, 266], &[]),
    ("W4 265", 1, &[10, 265], &[]),
    ("W5", 1, &[10, 11, 266], &[]),
    ("W6", 1, &[10, 266, 11], &[(Call::Get(2), "[11]", true)]),
    ("W7", 4, &[10, 11], &[(Call::Size, "[29]", true)]),
    ("W8", 1, &[10, 11], &[(Call::Push(9), "refused 1", false), (Call::Length, "[2]", true)]),
    (
        "W9",
        1,
        &[0, 0, 256, 256, 512],
        &[
            (Call::BisectLeft(0), "[0]", true),
            (Call::BisectLeft(1), "[2]", true),
            (Call::BisectLeft(256), "[2]", true),
            (Call::BisectLeft(257), "[4]", true),
            (Call::BisectLeft(512), "[4]", true),
            (Call::BisectLeft(513), "[5]", true),
            (Call::BisectRangeLeft(3, 5, 0), "[3]", false),
            (Call::BisectRangeLeft(0, 1, 513), "[1]", false),
        ],
    ),
    (
        "W10",
        1,
        &[0, 0, 256, 256, 512],
        &[
            (Call::TargetRange(1, 600), "[0, 256]", true),
            (Call::TargetRange(4, 600), "[512, 600]", true),
            (Call::TargetRange(3, 300), "[256, 300]", true),
            (Call::TargetRange(4, 300), "[512, 300]", true),
        ],
    ),
    ("a full walk of W9", 1, &[0, 0, 256, 256, 512], &[(Call::Iter(0, 5), "[0, 0, 256, 256, 512]", true)]),
];

/// The tables that 01 gives for its cases.
const TABLES: [(&str, &str); 9] = [
    ("W2", "starts [0] bases [10] offsets [0] widths [] data []"),
    ("W3", "starts [0] bases [10] offsets [0] widths [1] data [0]"),
    ("W4", "starts [0] bases [10] offsets [0] widths [2] data [0, 1]"),
    ("W4 265", "starts [0] bases [10] offsets [0] widths [1] data [255]"),
    ("W5", "starts [0, 2] bases [10, 266] offsets [0, 1] widths [1] data [1]"),
    ("W6", "starts [0] bases [10] offsets [0] widths [2] data [0, 1, 1, 0]"),
    ("W7", "starts [0] bases [10] offsets [0] widths [4] data [1, 0, 0, 0]"),
    ("W8", "starts [0] bases [10] offsets [0] widths [1] data [1]"),
    ("W9", "starts [0, 2, 4] bases [0, 256, 512] offsets [0, 1, 2] widths [1, 1] data [0, 0]"),
];

const SUBTRACTS: &str = "panic: attempt to subtract with overflow";

/// The shortest list that fills 65,535 segments and gives the last one a width.
fn most_segments() -> Vec<u64> {
    (0..65_535).flat_map(|segment| [segment << 8; 2]).collect()
}

/// The smallest inputs of docs/DIFFERENCES.md.
fn differences() -> Vec<Difference> {
    let at = |values: &[u64], calls| Difference { block: 16, values: values.to_vec(), minimum: 1, calls };
    vec![
        at(
            &[1],
            &[
                (Call::Push(0), SUBTRACTS, "[1]", "refused 1"),
                (Call::Get(1), "refused 5", "[0]", "refused 5"),
                (Call::Size, "[24]", "[33]", "[24]"),
            ],
        ),
        at(&[1, 1], &[(Call::Push(0), SUBTRACTS, "[2]", "refused 1"), (Call::Size, "[26]", "[50]", "[26]")]),
        at(
            &[],
            &[
                (Call::GetRange(0, 0), SUBTRACTS, "error: store: asked for 18446744073709551608..0 of 0", "[]"),
                (Call::Iter(0, 0), SUBTRACTS, "[]", "[]"),
                (Call::GetRange(1, 0), SUBTRACTS, "panic: capacity overflow", "refused 7"),
                (Call::Iter(1, 0), SUBTRACTS, "[]", "refused 7"),
                (Call::BisectRangeLeft(1, 0, 0), "[0]", "[0]", "refused 7"),
            ],
        ),
        at(
            &[0],
            &[
                (
                    Call::GetRange(1, 1),
                    "error: requested id 0 but data stream length is 0",
                    "error: requested id 0 but data stream length is 0",
                    "[]",
                ),
                (Call::Iter(1, 0), "[]", "[]", "refused 7"),
                (Call::BisectRangeLeft(0, 0, 1), "[1]", "[1]", "[0]"),
                (Call::BisectRangeLeft(1, 1, 0), "[0]", "[0]", "[1]"),
            ],
        ),
        at(
            &[0, 0],
            &[(
                Call::BisectRangeLeft(0, 0, 1),
                SUBTRACTS,
                "error: requested range 0..18446744073709551615 but data stream length is 1",
                "[0]",
            )],
        ),
        at(&[0, 0, 256], &[(Call::BisectRangeLeft(3, 3, 1), SUBTRACTS, "error: store: asked for 2..1 of 1", "[3]")]),
        at(&[0, 1, 0], &[(Call::BisectRangeLeft(0, 2, 1), "[1]", "[1]", "[2]")]),
        Difference { minimum: 6, ..at(&[0; 4], &[(Call::BisectLeft(1), "[3]", "[3]", "[4]")]) },
        Difference { block: 4096, ..at(&[0; 4098], &[(Call::BisectLeft(1), "[4097]", "[4097]", "[4098]")]) },
        at(&most_segments(), &[(Call::Push(65_535 << 8), "[131070]", "[131070]", "refused 2")]),
    ]
}
