//! The lists of values, and the questions asked of each: the same for every engine and every run.

/// SplitMix64.
struct Chance(u64);

impl Chance {
    fn any(&mut self) -> u64 {
        self.0 = self.0.wrapping_add(0x9E37_79B9_7F4A_7C15);
        let mut z = self.0;
        z = (z ^ (z >> 30)).wrapping_mul(0xBF58_476D_1CE4_E5B9);
        z = (z ^ (z >> 27)).wrapping_mul(0x94D0_49BB_1331_11EB);
        z ^ (z >> 31)
    }

    /// A number from `least` to `most`.
    fn between(&mut self, least: u64, most: u64) -> u64 {
        least + self.any() % (most - least + 1)
    }
}

/// How many positions and values are asked for in one round.
pub const QUESTIONS: usize = 50_000;

/// A list of values, never falling, and the questions asked of it.
pub struct Input {
    pub name: &'static str,
    pub values: Vec<u64>,
    /// Positions for get, and for get_range of 16 from there on.
    pub positions: Vec<u64>,
    /// Values for bisect_left.
    pub wanted: Vec<u64>,
}

/// The inputs by name.
pub const NAMES: [&str; 4] = ["packet offsets", "timestamps", "one long segment", "60,000 segments"];

impl Input {
    /// The input of this name, with about n values.
    pub fn new(name: &'static str, n: usize) -> Self {
        let mut chance = Chance(1);
        let values = match name {
            "packet offsets" => steps(n, |_| chance.between(1, 1_500)),
            "timestamps" => steps(n, |_| chance.between(100, 100_000)),
            // A base, then n deltas: the first takes four bytes, so all do.
            "one long segment" => steps(n + 1, |i| if i == 1 { 1 << 24 } else { chance.between(1, 4_000) }),
            // Within a segment the values rise by at most 16 x 15; the next one is out of a byte's reach.
            "60,000 segments" => {
                let segment = |i: usize| i * 60_000 / n;
                steps(n, |i| if segment(i) == segment(i - 1) { chance.between(1, 15) } else { chance.between(256, 1_000) })
            }
            _ => panic!("no input {name}"),
        };
        let length = values.len() as u64;
        let positions = (0..QUESTIONS).map(|_| chance.between(0, length - 17)).collect();
        let wanted = (0..QUESTIONS).map(|_| chance.between(0, values[values.len() - 1] + 1)).collect();
        Input { name, values, positions, wanted }
    }
}

/// n values from 0 on, each the one before it and a step.
fn steps(n: usize, mut step: impl FnMut(usize) -> u64) -> Vec<u64> {
    let mut value = 0;
    let mut values = vec![value];
    for i in 1..n {
        value += step(i);
        values.push(value);
    }
    values
}
