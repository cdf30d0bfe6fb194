//! Walks read ahead. They give what single steps give, on any tables.

use rotlantern::{CompactIndex, Cursor, Refusal, Tables, View};

type Given = Vec<Result<u64, Refusal>>;

/// What single steps over a..b give, up to the first refusal.
fn steps(view: &View, a: u64, b: u64) -> Given {
    let mut cursor = Cursor { next: a, end: b };
    let mut given = Vec::new();
    while let Some(answer) = view.next(&mut cursor).transpose() {
        given.push(answer);
        if answer.is_err() {
            break;
        }
    }
    given
}

/// What a walk over a..b gives, and nothing after that.
fn walk(view: &View, a: u64, b: u64) -> Given {
    let mut values = view.iter(a, b).unwrap();
    let given = values.by_ref().take((b - a) as usize).collect();
    assert_eq!(values.next(), None);
    given
}

fn index_of(values: impl IntoIterator<Item = u64>) -> CompactIndex {
    let mut index = CompactIndex::default();
    for value in values {
        index.push(value).unwrap();
    }
    index
}

#[test]
fn empty_walks() {
    assert_eq!(walk(&CompactIndex::default().view(), 0, 0), []);
    let index = index_of(0..300);
    for at in [0, 1, 299, 300] {
        assert_eq!(walk(&index.view(), at, at), []);
    }
    assert_eq!(index.iter(301, 301).unwrap_err(), Refusal::RangeEnd);
    assert_eq!(index.iter(2, 1).unwrap_err(), Refusal::Reversed);
}

#[test]
fn walks_of_every_length() {
    let index = index_of((0..300).map(|i| i * i));
    for a in [0, 1, 77] {
        for b in a..=300 {
            let values: Given = (a..b).map(|i| Ok(i * i)).collect();
            assert_eq!(walk(&index.view(), a, b), values);
            assert_eq!(steps(&index.view(), a, b), values);
        }
    }
}

/// Each position in turn: also the first, the last and the middle of what is read ahead.
#[test]
fn damage_at_every_position() {
    let value = |i| u64::MAX - 100 + i % 100;
    let index = index_of((0..300).map(value));
    let view = index.view();
    for damaged in 1..300 {
        let mut data = view.tables.data.to_vec();
        data[damaged as usize - 1] = 101;
        let tables = Tables {
            data: &data,
            ..view.tables
        };
        let broken = View { tables, ..view };
        for a in [0, damaged / 2, damaged] {
            let mut given: Given = (a..damaged).map(|i| Ok(value(i))).collect();
            given.push(Err(Refusal::Damaged));
            assert_eq!(walk(&broken, a, 300), given);
            assert_eq!(steps(&broken, a, 300), given);
        }
    }
}

/// One entry of one table is any number.
#[test]
fn damage_anywhere() {
    let index = index_of((0..400).map(|i| i * 37));
    let view = index.view();
    let mut seed = 1u64;
    let mut below = |n: u64| {
        seed = seed
            .wrapping_mul(6364136223846793005)
            .wrapping_add(1442695040888963407);
        (seed >> 33) % n
    };
    let mut refused = 0;
    for _ in 0..5_000 {
        let t = view.tables;
        let (mut starts, mut bases) = (t.starts.to_vec(), t.bases.to_vec());
        let mut offsets = t.offsets.to_vec();
        let (mut widths, mut data) = (t.widths.to_vec(), t.data.to_vec());
        let number = [below(500), u64::MAX - below(500)][below(2) as usize];
        let segment = below(view.state.segments) as usize;
        match below(5) {
            0 => starts[segment] = number,
            1 => bases[segment] = number,
            2 => offsets[segment] = number,
            3 => widths[segment] = number as u8,
            _ => data[below(view.state.used) as usize] = number as u8,
        }
        let tables = Tables {
            starts: &starts,
            bases: &bases,
            offsets: &offsets,
            widths: &widths,
            data: &data,
        };
        let broken = View { tables, ..view };
        let a = below(100);
        let given = walk(&broken, a, 400);
        assert_eq!(given, steps(&broken, a, 400));
        refused += u64::from(given.contains(&Err(Refusal::Damaged)));
    }
    assert!((500..4_500).contains(&refused), "{refused} refused");
}

#[test]
fn pushes_between_steps() {
    let mut index = index_of([3]);
    let mut cursor = Cursor { next: 0, end: 3 };
    assert_eq!(index.next(&mut cursor), Ok(Some(3)));
    assert_eq!(index.next(&mut cursor), Err(Refusal::Position));
    index.push(4).unwrap();
    assert_eq!(index.next(&mut cursor), Ok(Some(4)));
    index.push(700).unwrap();
    assert_eq!(cursor, Cursor { next: 2, end: 3 });
    assert_eq!(index.next(&mut cursor), Ok(Some(700)));
    assert_eq!(index.next(&mut cursor), Ok(None));
}
