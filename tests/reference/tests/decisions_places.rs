//! Decisions on steps that lack places in the send-back store (document 02, W2), a small test for each.

mod common;

use common::{boundary, placed, plain, reading, undo, Bench, SINGLE, TWO_DISPLAYS};
use reference::node::{Reading, Word};
use reference::record::Record;

/// Eight windows of 64 results.
const FULL: [u8; 8] = [64; 8];

// Exactly as many results as free places are accepted, one more is 15.
#[test]
fn as_many_as_there_are_places() {
    let mut bench = Bench::open(SINGLE);
    bench.windows(&FULL[1..]);
    let mut exact = bench.clone();
    assert_eq!(exact.windows(&[64]).len(), 64);
    exact.window(1);
    assert_eq!(exact.try_step(0), 15);
    bench.windows(&[63]);
    bench.window(2);
    assert_eq!(bench.try_step(0), 15);
    assert_eq!(bench.acknowledge(1, 1), 0);
    assert_eq!(bench.step(0).len(), 3);
    assert_eq!(bench.fetch(1, 449).len(), 64);
}

// What frees places is what all have acknowledged.
#[test]
fn places_of_the_slowest() {
    let mut bench = Bench::open(TWO_DISPLAYS);
    bench.windows(&FULL);
    bench.window(1);
    assert_eq!(bench.acknowledge(1, 512), 0);
    assert_eq!(bench.try_step(0), 15);
    assert_eq!(bench.acknowledge(2, 1), 0);
    assert_eq!(bench.step(0).len(), 2);
}

// A refused step moves nothing, not the clock either; 7, 8 and 9 come before 15.
#[test]
fn refused_for_places() {
    let mut bench = Bench::open(SINGLE);
    bench.windows(&FULL);
    bench.window(1);
    bench.state.clock = 9;
    assert_eq!(bench.send(plain(1_000, 0, 'P')), 15);
    assert_eq!(bench.state.clock, 9);
    assert_eq!(bench.send(plain(8, 0, 'P')), 7);
    assert_eq!(bench.send(plain(9, 1, 'P')), 8);
    let mut odd = plain(9, 0, 'P');
    odd.value = 1;
    assert_eq!(bench.send(odd), 9);
    bench.area.pop();
    assert_eq!(bench.send(plain(9, 0, 'P')), 5);
}

// Inputs are never refused with 15; nor are rules 1, 3, 4 and 5.
#[test]
fn other_rules_need_no_places() {
    let mut bench = Bench::open(SINGLE);
    bench.windows(&FULL);
    assert_eq!(bench.step(0), []);
    assert_eq!(bench.send(reading(0, 1, 'S', 1, 810, 5)), 0);
    assert_eq!(bench.step(50)[0].id, 513);
    assert_eq!(bench.send(boundary(50, 1, 900)), 0);
    assert_eq!(bench.step(51), [Record::undo(512)]);
    assert_eq!(bench.state.word, Word::Correcting);
    for _ in 0..3 {
        assert_eq!(bench.try_step(99), 15);
    }
    assert_eq!(bench.send(reading(51, 1, 'T', 2, 910, 5)), 0);
    assert_eq!(bench.send(undo(51, 1, 1)), 0);
    assert_eq!(bench.send(plain(51, 1, 'R')), 0);
    assert_eq!(bench.acknowledge(1, 1), 0);
    assert_eq!(bench.step(51)[0].id, 513);
    assert_eq!(bench.step(51), [Record::done()]);
}

// A bucket inside a window is worked on a full store, and a window without results closes there.
#[test]
fn no_results_need_no_places() {
    let mut bench = Bench::open(SINGLE);
    bench.windows(&FULL);
    bench.state.settings.window = 3;
    assert_eq!(bench.windows(&[0]), []);
    bench.window(5);
    assert_eq!(bench.state.c, 9);
    assert_eq!(bench.step(0), []);
    bench.boundaries(1_200);
    assert_eq!(bench.step(0), []);
    assert_eq!(bench.state.c, 11);
    assert_eq!(bench.try_step(0), 15);
}

// How many results there would be is told by the operator as it stands and by bucket c's readings
// inside low to high, not by the checkpoint.
#[test]
fn results_of_the_operator() {
    let mut bench = Bench::open(SINGLE);
    bench.windows(&FULL);
    bench.window(0);
    let mut ahead = bench.clone();
    ahead.state.operator.meters[9].count = 1;
    assert_eq!(ahead.try_step(0), 15);
    let mut behind = bench.clone();
    behind.state.checkpoint.meters[9].count = 1;
    assert_eq!(behind.step(0), [Record::boundary(900)]);
    for (time, value, answer) in [(800, 1_000, 15), (899, -1_000, 15), (850, 1_001, 0)] {
        let mut kept = bench.clone();
        kept.place(1, placed('T', 1, time, value));
        kept.place(1, placed('S', 2, 799, 5));
        kept.place(1, placed('S', 3, 900, 5));
        assert_eq!(kept.try_step(0), answer, "{time} {value}");
    }
    bench.state.acknowledged[0] = 1;
    bench.held(1).fill(0);
    bench.state.operator.meters[9].count = 1;
    bench.place(
        1,
        Reading {
            meter: 9,
            ..placed('S', 1, 800, 5)
        },
    );
    assert_eq!(bench.step(0).len(), 2);
}
