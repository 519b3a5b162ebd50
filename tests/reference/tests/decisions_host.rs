//! Decisions on states and stores that no opening leads to: lines, meters, kept readings and ids.
//! A small test for each.

mod common;

use common::{boundary, meter, placed, plain, reading, spell, undo, Bench, SINGLE, USUAL};
use reference::node::{call, open, store_length, Head, Lent, Reading, State};
use reference::record::AREA_BYTES;
use reference::text::{read_settings, Settings};

fn step_over(lines: u32, places: usize) -> u32 {
    let settings = read_settings(USUAL.as_bytes()).unwrap();
    let mut state = State::fresh(Settings { lines, ..settings });
    let mut lent = Lent {
        store: vec![Reading::ZERO; places],
        ..Lent::zeroed()
    };
    let text = spell(&plain(0, 0, 'P'));
    call(&mut state, &mut lent, &text, &mut [0; AREA_BYTES]).0
}

// The store's length is judged by whatever number of lines the state has.
#[test]
fn short_store_before_bad_lines() {
    assert_eq!(step_over(9, 2_048), 3);
    assert_eq!(step_over(9, 2_303), 3);
    assert_eq!(step_over(9, 2_304), 4);
    assert_eq!(step_over(0, 0), 4);
    assert_eq!(step_over(u32::MAX, 2_048), 3);
    assert_eq!(step_over(1 << 24, 4_096), 3);
    assert_eq!(step_over(2, 511), 3);
    assert_eq!(step_over(2, 512), 0);
}

// The opening's refusal 3 comes after 1 and 2.
#[test]
fn opening_over_a_short_store() {
    let mut lent = Lent {
        store: vec![placed('S', 1, 2, 3); 511],
        ..Lent::zeroed()
    };
    let before = lent.clone();
    assert_eq!(open(USUAL.as_bytes(), &mut lent).unwrap_err() as u32, 3);
    let none = b"lines=0 bucket=100 window=1 hold=50 low=0 high=0 displays=1\n";
    assert_eq!(open(none, &mut lent).unwrap_err() as u32, 2);
    assert_eq!(open(b"", &mut lent).unwrap_err() as u32, 1);
    assert_eq!(lent, before);
    lent.store.resize(514, placed('T', 4, 5, 6));
    assert!(open(USUAL.as_bytes(), &mut lent).is_ok());
    let (places, behind) = lent.store.split_at(512);
    assert!(places.iter().all(|place| *place == Reading::ZERO));
    assert_eq!(behind, [placed('T', 4, 5, 6); 2]);
}

// A store in columns is as long as its shortest column.
#[test]
fn shortest_column() {
    assert_eq!(store_length([9, 8, 7, 6, 7, 8]), 6);
    assert_eq!(store_length([512, 512, 512, 512, 512, 511]), 511);
    assert_eq!(store_length([0, 512, 512, 512, 512, 512]), 0);
}

// Heads past the last line are not looked at and come back as they were.
#[test]
fn heads_past_the_lines() {
    let mut bench = Bench::open(USUAL);
    assert_eq!(bench.state.heads, [Head::default(); 8]);
    let junk = Head {
        boundary: 5,
        last_id: 1,
        last_stable_id: 9,
        kept: u32::MAX,
    };
    bench.state.heads[2..].fill(junk);
    assert_eq!(bench.send(boundary(0, 1, 100)), 0);
    assert_eq!(bench.send(boundary(0, 2, 100)), 0);
    assert_eq!(bench.step(0).len(), 1);
    assert_eq!(bench.state.heads[2..], [junk; 6]);
}

// The meters of operator and checkpoint both have to be in shape.
#[test]
fn meters_of_both() {
    let shapes = [
        (meter(32_768, 0, 0), 0),
        (meter(32_769, 0, 0), 4),
        (meter(u32::MAX, 0, 0), 4),
        (meter(0, 1, 0), 4),
        (meter(2, 2 * i64::from(i32::MAX), 0), 0),
        (meter(2, 2 * i64::from(i32::MAX) + 1, 0), 4),
        (meter(2, 2 * i64::from(i32::MIN), 0), 0),
        (meter(2, 2 * i64::from(i32::MIN) - 1, 0), 4),
        (meter(1, i64::MIN, 0), 4),
    ];
    for (cell, answer) in shapes {
        let mut bench = Bench::open(USUAL);
        bench.state.operator.meters[63] = cell;
        assert_eq!(bench.try_step(0), answer, "{cell:?}");
        let mut bench = Bench::open(USUAL);
        bench.state.checkpoint.meters[0] = cell;
        assert_eq!(bench.try_step(0), answer, "{cell:?}");
    }
}

// A stable bucket is worked from the operator, and the checkpoint becomes what it leaves.
#[test]
fn stable_work_starts_at_the_operator() {
    let mut bench =
        Bench::open("lines=1 bucket=100 window=2 hold=50 low=-1000 high=1000 displays=1\n");
    bench.state.operator.meters[3] = meter(1, 5, 5);
    bench.state.checkpoint.meters[3] = meter(7, 70, 10);
    bench.place(1, placed('S', 1, 10, 2));
    bench.boundaries(200);
    assert_eq!(bench.step(0), []);
    assert_eq!(bench.state.operator.meters[3], meter(2, 7, 2));
    assert_eq!(bench.state.checkpoint, bench.state.operator);
    let results = bench.step(0);
    assert_eq!((results[0].count, results[0].sum), (2, 7));
    assert_eq!(bench.state.checkpoint.meters[3], meter(0, 0, 0));
    assert_eq!(bench.state.checkpoint.newest, 1);
}

// A tentative reading in a stable bucket counts, and leaves like the others.
#[test]
fn tentative_in_a_stable_bucket() {
    let mut bench = Bench::open(SINGLE);
    bench.place(1, placed('T', 1, 10, 2));
    bench.boundaries(100);
    let results = bench.step(0);
    assert_eq!((results[0].kind, results[0].sum), (b'S', 2));
    assert_eq!(bench.kept(1), []);
}

// Readings below bucket c stay, and are never due.
#[test]
fn readings_below_c() {
    let mut bench = Bench::open(SINGLE);
    (bench.state.c, bench.state.p) = (2, 2);
    bench.place(1, placed('S', 1, 199, 2));
    bench.place(1, placed('S', 2, 200, 4));
    bench.place(1, placed('S', 3, 5, 8));
    bench.boundaries(300);
    assert_eq!(bench.step(0)[0].sum, 4);
    let stay = [placed('S', 1, 199, 2), placed('S', 3, 5, 8)];
    assert_eq!(bench.kept(1), stay);
    assert_eq!(bench.step(1_000_000), []);
    bench.state.heads[0].last_id = 3;
    assert_eq!(bench.send(undo(1_000_000, 1, 2)), 0);
    assert_eq!(bench.kept(1), &stay[..1]);
}

// An undo at the last id strikes what a host kept above it, a stable reading too.
#[test]
fn undo_at_the_last_id() {
    let mut bench = Bench::open(SINGLE);
    for id in [3, 5, 6, 9] {
        bench.place(1, placed('S', id, 10, 1));
    }
    bench.state.heads[0].last_id = 5;
    bench.state.heads[0].last_stable_id = 2;
    assert_eq!(bench.send(undo(0, 1, 5)), 0);
    assert_eq!(
        bench.kept(1),
        [placed('S', 3, 10, 1), placed('S', 5, 10, 1)]
    );
    assert_eq!(bench.lent.store[2..4], [Reading::ZERO; 2]);
    assert_eq!(bench.send(undo(0, 1, 2)), 0);
    assert_eq!(bench.kept(1), []);
    assert_eq!(bench.state.heads[0].last_id, 2);
    assert_eq!(bench.state.heads[0].last_stable_id, 2);
}

// A new id is only compared with the last id; it may leave the store out of shape.
#[test]
fn new_id_below_a_kept_one() {
    let mut bench = Bench::open(SINGLE);
    bench.place(1, placed('S', 8, 10, 1));
    assert_eq!(bench.send(reading(0, 1, 'S', 1, 10, 2)), 0);
    assert_eq!(bench.kept(1)[1], placed('S', 1, 10, 2));
    assert_eq!(bench.try_step(0), 4);
}

// After the greatest id no further reading fits.
#[test]
fn greatest_id() {
    let mut bench = Bench::open(SINGLE);
    bench.state.heads[0].last_id = u32::MAX - 1;
    assert_eq!(bench.send(reading(0, 1, 'S', u32::MAX, 10, 2)), 0);
    for id in [0, 1, u32::MAX] {
        assert_eq!(bench.send(reading(0, 1, 'S', id, 10, 2)), 11);
        assert_eq!(bench.send(reading(0, 1, 'T', id, 10, 2)), 11);
    }
    assert_eq!(bench.send(undo(0, 1, u32::MAX)), 0);
}
