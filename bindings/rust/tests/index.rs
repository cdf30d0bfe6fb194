//! Every function of the crate, on W9 of document 01, on a longer list, and on damaged tables.

use rotlantern::{CompactIndex, DeltaRun, Refusal, State, Tables, TablesMut, Verdict, View};

fn w9() -> CompactIndex {
    let mut index = CompactIndex::default();
    for (i, v) in [0, 0, 256, 256, 512].into_iter().enumerate() {
        assert_eq!(index.push(v), Ok(i as u64));
    }
    index
}

#[test]
fn opens() {
    assert_eq!(State::open(0), Err(Refusal::Minimum));
    assert_eq!(State::open(9), Err(Refusal::Minimum));
    assert_eq!(State::open_default(), State::open(1).unwrap());
    assert_eq!(CompactIndex::new(12).unwrap_err().number(), 11);
    assert!(CompactIndex::new(8).unwrap().is_empty());
}

#[test]
fn w9_answers() {
    let mut index = w9();
    assert_eq!(index.push(511), Err(Refusal::Below));
    assert_eq!(index.len(), 5);
    assert_eq!(index.size(), Ok(76));
    assert_eq!(index.get(3), Ok(256));
    assert_eq!(index.get(5), Err(Refusal::Position));
    assert_eq!(index.get_range(1, 4), Ok(vec![0, 256, 256]));
    assert_eq!(index.get_range(1, 6), Err(Refusal::RangeEnd));
    assert_eq!(index.get_range(4, 1), Err(Refusal::Reversed));
    let bisected: Vec<_> = [0, 1, 256, 257, 512, 513]
        .map(|v| index.bisect_left(v).unwrap())
        .into();
    assert_eq!(bisected, [0, 2, 2, 4, 4, 5]);
    assert_eq!(index.bisect_range_left(3, 5, 0), Ok(3));
    assert_eq!(index.bisect_range_left(0, 1, 513), Ok(1));
    assert_eq!(index.target_range(3, 300), Ok((256, 300)));
    assert_eq!(index.audit(), Verdict::WellFormed);
    assert_eq!(
        index.iter(2, 5).unwrap().collect::<Result<Vec<_>, _>>(),
        Ok(vec![256, 256, 512])
    );
    assert_eq!(index.iter(2, 6).unwrap_err(), Refusal::RangeEnd);
}

#[test]
fn what_goes_in_comes_out() {
    let mut index = CompactIndex::new(2).unwrap();
    let mut seed = 1u64;
    let mut value = 0u64;
    let mut values = Vec::new();
    for _ in 0..20_000 {
        seed = seed
            .wrapping_mul(6364136223846793005)
            .wrapping_add(1442695040888963407);
        value += seed >> 44;
        index.push(value).unwrap();
        values.push(value);
    }
    assert_eq!(index.audit(), Verdict::WellFormed);
    assert_eq!(index.get_range(0, 20_000).unwrap(), values);
    assert_eq!(
        index
            .iter(0, 20_000)
            .unwrap()
            .collect::<Result<Vec<_>, _>>()
            .unwrap(),
        values
    );
    for (i, v) in values.iter().enumerate().step_by(97) {
        assert_eq!(index.get(i as u64), Ok(*v));
        assert_eq!(
            index.bisect_left(*v),
            Ok(values.partition_point(|u| u < v) as u64)
        );
    }
}

#[test]
fn lent_tables() {
    let (mut starts, mut bases, mut offsets) = ([7; 2], [7; 2], [7; 2]);
    let (mut widths, mut data) = ([7; 1], [7; 3]);
    let mut state = State::open(1).unwrap();
    let mut push = |v| {
        let tables = TablesMut {
            starts: &mut starts,
            bases: &mut bases,
            offsets: &mut offsets,
            widths: &mut widths,
            data: &mut data,
        };
        rotlantern::push(&mut state, tables, v)
    };
    assert_eq!(push(10), Ok(0));
    assert_eq!(push(266), Ok(1));
    assert_eq!(push(11), Err(Refusal::DataRoom));
    assert_eq!(push(10 + 65536), Ok(2));
    assert_eq!(push(10 + 65537), Err(Refusal::WidthRoom));
    assert_eq!(
        (starts, bases, offsets, widths, data),
        ([0, 2], [10, 65546], [0, 2], [2], [0, 1, 7])
    );
    let tables = Tables {
        starts: &starts,
        bases: &bases,
        offsets: &offsets,
        widths: &widths,
        data: &data,
    };
    let view = View { state, tables };
    assert_eq!(view.len(), Ok(3));
    assert_eq!(view.is_empty(), Ok(false));
    let mut out = [9; 4];
    assert_eq!(view.get_range(0, 3, &mut out), Ok(3));
    assert_eq!(out, [10, 266, 65546, 9]);
    assert_eq!(
        view.get_range(0, 3, &mut out[..2]),
        Err(Refusal::OutputRoom)
    );
}

#[test]
fn damage() {
    let index = w9();
    let view = index.view();
    let widths = [1, 9];
    let broken = View {
        tables: Tables {
            widths: &widths,
            ..view.tables
        },
        ..view
    };
    assert_eq!(broken.audit(), Verdict::Flaw('C', 1));
    assert_eq!(broken.get(3), Err(Refusal::Damaged));
    assert_eq!(
        broken.iter(2, 5).unwrap().collect::<Vec<_>>(),
        [Ok(256), Err(Refusal::Damaged)]
    );
    let counts = View {
        state: State {
            used: 1 << 40,
            ..view.state
        },
        ..view
    };
    assert_eq!(counts.len(), Err(Refusal::Counts));
    assert_eq!(counts.audit(), Verdict::Flaw('A', 0));
}

#[test]
fn delta_runs() {
    let run = DeltaRun {
        bytes: &[1, 0, 2, 0, 3],
        base: 10,
        width: 2,
    };
    assert_eq!(run.count(), Ok(2));
    assert_eq!(run.value(1), Ok(12));
    assert_eq!(run.value(2), Err(Refusal::Position));
    assert_eq!(DeltaRun { width: 9, ..run }.count(), Err(Refusal::Damaged));
    assert_eq!(
        DeltaRun {
            base: u64::MAX,
            ..run
        }
        .value(0),
        Err(Refusal::Damaged)
    );
}
