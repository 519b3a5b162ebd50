//! Decisions on the step and on the operator, a small test for each.

mod common;

use common::{boundary, placed, reading, undo, Bench, SINGLE, USUAL};
use reference::node::{mean, rule, Reading, Rule, Word};
use reference::record::Record;

const DOUBLE: &str = "lines=1 bucket=100 window=2 hold=50 low=-1000 high=1000 displays=1\n";

// One boundary for each window, also for an empty one, and never from tentative work.
#[test]
fn boundaries_put_out() {
    let mut bench = Bench::open(DOUBLE);
    assert_eq!(bench.send(boundary(0, 1, 400)), 0);
    assert_eq!(bench.step(0), []);
    assert_eq!(bench.step(0), [Record::boundary(200)]);
    assert_eq!(bench.step(0), []);
    assert_eq!(bench.step(0), [Record::boundary(400)]);
    assert_eq!(bench.send(reading(0, 1, 'S', 1, 500, 1)), 0);
    assert_eq!(bench.step(50), []);
    let results = bench.step(50);
    assert_eq!(results.len(), 1);
    assert_eq!(results[0].kind, b'T');
}

// A result's time is the start of its window, stable or tentative.
#[test]
fn times_of_results() {
    let mut bench = Bench::open(DOUBLE);
    assert_eq!(bench.send(reading(0, 1, 'S', 1, 250, 4)), 0);
    assert_eq!(bench.send(reading(0, 1, 'S', 2, 310, 6)), 0);
    assert_eq!(bench.send(boundary(0, 1, 300)), 0);
    for _ in 0..3 {
        bench.step(0);
    }
    assert_eq!((bench.state.c, bench.state.p), (3, 3));
    let tentative = bench.step(50);
    assert_eq!((tentative[0].time, tentative[0].sum), (200, 10));
    assert_eq!(bench.send(boundary(50, 1, 400)), 0);
    assert_eq!(bench.step(50), [Record::undo(0)]);
    let stable = bench.step(50);
    assert_eq!((stable[0].time, stable[0].sum), (200, 10));
    assert_eq!(stable[1], Record::boundary(400));
}

// After an undo the numbering goes on from the last stable result.
#[test]
fn numbering() {
    let mut bench = Bench::open(SINGLE);
    assert_eq!(bench.send(reading(0, 1, 'S', 1, 10, 1)), 0);
    assert_eq!(bench.send(boundary(0, 1, 100)), 0);
    assert_eq!(bench.step(0)[0].id, 1);
    assert_eq!(bench.send(reading(0, 1, 'S', 2, 110, 2)), 0);
    assert_eq!(bench.send(reading(0, 1, 'S', 3, 210, 3)), 0);
    assert_eq!(bench.step(50)[0].id, 2);
    assert_eq!(bench.step(50)[0].id, 3);
    assert_eq!(bench.send(boundary(50, 1, 200)), 0);
    assert_eq!(bench.step(50), [Record::undo(1)]);
    assert_eq!(bench.step(50)[0].id, 2);
    assert_eq!(bench.step(50), [Record::done()]);
    assert_eq!(bench.step(50)[0].id, 3);
    assert_eq!(bench.state.checkpoint.newest, 2);
}

// Working a stable bucket leaves the word, and the R that ends a correction goes before
// tentative work.
#[test]
fn words() {
    let mut bench = Bench::open(SINGLE);
    assert_eq!(bench.send(reading(0, 1, 'S', 1, 10, 1)), 0);
    assert_eq!(bench.send(reading(0, 1, 'S', 2, 310, 1)), 0);
    let mut words = Vec::new();
    for _ in 0..2 {
        bench.step(50);
        words.push(bench.state.word);
    }
    assert_eq!(bench.send(boundary(50, 1, 200)), 0);
    for _ in 0..5 {
        words.push({
            bench.step(50);
            bench.state.word
        });
    }
    use Word::{Correcting, Failure, Stable};
    let due = [
        Failure, Failure, Correcting, Correcting, Correcting, Stable, Failure,
    ];
    assert_eq!(words, due);
}

// One due reading far ahead makes every bucket up to its own be worked, one a step.
#[test]
fn far_reading() {
    let mut bench = Bench::open(SINGLE);
    assert_eq!(bench.send(reading(0, 1, 'S', 1, 310, 7)), 0);
    assert_eq!(bench.send(reading(40, 1, 'S', 2, 210, 5)), 0);
    assert_eq!(bench.step(50), []);
    assert_eq!(bench.state.p, 1);
    assert_eq!(bench.step(50), []);
    assert_eq!(bench.step(50)[0].sum, 5);
    assert_eq!(bench.step(50)[0].sum, 7);
    assert_eq!(bench.state.p, 4);
    assert_eq!(bench.send(reading(60, 1, 'S', 3, 10, 9)), 0);
    assert_eq!(bench.step(1_000), []);
    assert_eq!(bench.state.p, 4);
}

// The readings of a bucket may stand anywhere in a share.
#[test]
fn close_up() {
    let mut bench = Bench::open(USUAL);
    for (id, time) in [(1, 150), (2, 50), (3, 160), (4, 60), (5, 50), (6, 110)] {
        assert_eq!(bench.send(reading(0, 1, 'S', id, time, 1)), 0);
    }
    assert_eq!(bench.send(boundary(0, 1, 100)), 0);
    assert_eq!(bench.send(boundary(0, 2, 100)), 0);
    assert_eq!(bench.step(0)[0].count, 3);
    let stay = [(1, 150), (3, 160), (6, 110)].map(|(id, time)| placed('S', id, time, 1));
    assert_eq!(bench.kept(1), stay);
    assert_eq!(bench.lent.store[3..6], [Reading::ZERO; 3]);
}

// The mean at a half and beside it, of even and odd counts; the sign changes nothing else.
#[test]
fn means() {
    let cases = [
        (0, 3, 0),
        (1, 2, 0),
        (3, 2, 2),
        (7, 2, 4),
        (1, 3, 0),
        (2, 3, 1),
        (7, 3, 2),
        (2, 4, 0),
        (6, 4, 2),
        (9, 4, 2),
        (10, 4, 2),
        (11, 4, 3),
        (14, 4, 4),
        (12, 5, 2),
        (13, 5, 3),
        (8, 6, 1),
        (9, 6, 2),
        (15, 6, 2),
        (21, 6, 4),
    ];
    for (sum, count, due) in cases {
        assert_eq!(mean(sum, count), due, "{sum}/{count}");
        assert_eq!(mean(-sum, count), -due, "-{sum}/{count}");
    }
}

// At most half away from the quotient on either side, and even where it is exactly half.
#[test]
fn means_are_nearest() {
    for count in 1..=12 {
        let wide = i64::from(count);
        for sum in -100..=100 {
            let mean = mean(sum, count);
            let twice_off = 2 * (sum - mean * wide).abs();
            assert!(twice_off <= wide, "{sum}/{count}");
            assert!(twice_off < wide || mean % 2 == 0, "{sum}/{count}");
        }
    }
}

// Sums at both limits of a count, half a step inside them, and a little more.
#[test]
fn means_at_the_limits() {
    let (least, greatest) = (i64::from(i32::MIN), i64::from(i32::MAX));
    for count in [1, 2, 3, 4, 32_767, 32_768, 34_816, u32::MAX - 1, u32::MAX] {
        let wide = i64::from(count);
        assert_eq!(mean(least * wide, count), least, "{count}");
        assert_eq!(mean(greatest * wide, count), greatest, "{count}");
        if count % 2 == 0 {
            let half = wide / 2;
            assert_eq!(mean(least * wide + half, count), least, "{count}");
            assert_eq!(mean(least * wide + half + 1, count), least + 1, "{count}");
            assert_eq!(mean(greatest * wide - half, count), greatest - 1, "{count}");
            assert_eq!(mean(greatest * wide - half + 1, count), greatest, "{count}");
        }
    }
    assert_eq!(mean(i64::MIN, 1), i64::MIN);
    assert_eq!(mean(i64::MAX, 1), i64::MAX);
}

// The last value by time, line and id among those inside the limits.
#[test]
fn last_value() {
    let mut bench = Bench::open(USUAL);
    assert_eq!(bench.send(reading(0, 1, 'S', 1, 80, 1)), 0);
    assert_eq!(bench.send(reading(0, 1, 'S', 2, 20, 2)), 0);
    assert_eq!(bench.send(reading(0, 1, 'S', 3, 90, 1_001)), 0);
    assert_eq!(bench.send(reading(0, 2, 'S', 1, 80, 3)), 0);
    assert_eq!(bench.send(reading(0, 2, 'S', 2, 80, 4)), 0);
    assert_eq!(bench.send(reading(0, 2, 'S', 3, 79, 5)), 0);
    bench.boundaries(100);
    let result = bench.step(0)[0];
    assert_eq!((result.count, result.sum, result.last), (5, 15, 4));
    let mut handed = Bench::open(DOUBLE);
    assert_eq!(handed.send(reading(0, 1, 'S', 1, 99, 8)), 0);
    assert_eq!(handed.send(reading(0, 1, 'S', 2, 100, 9)), 0);
    handed.boundaries(200);
    assert_eq!(handed.step(0), []);
    assert_eq!(handed.step(0)[0].last, 9);
}

// A value outside the limits is kept and makes a bucket due, but gives no result.
#[test]
fn values_outside() {
    let mut bench = Bench::open(SINGLE);
    for (id, value) in [(1, 1_001), (2, -1_001)] {
        assert_eq!(bench.send(reading(0, 1, 'S', id, 10, value)), 0);
    }
    assert_eq!(bench.kept(1).len(), 2);
    assert_eq!(bench.step(50), []);
    assert_eq!(bench.state.word, Word::Failure);
    assert_eq!(bench.send(reading(50, 1, 'S', 3, 10, 1_000)), 0);
    assert_eq!(bench.send(reading(50, 1, 'S', 4, 10, -1_000)), 0);
    assert_eq!(bench.send(boundary(50, 1, 100)), 0);
    assert_eq!(bench.step(50), [Record::undo(0)]);
    assert_eq!(bench.step(50)[0].count, 2);
}

// Rule 4 sees tentative readings too, and an undone one makes nothing due.
#[test]
fn tentative_readings_are_due() {
    let mut bench = Bench::open(SINGLE);
    assert_eq!(bench.send(reading(0, 1, 'T', 1, 10, 7)), 0);
    let mut undone = bench.clone();
    assert_eq!(bench.step(50)[0].sum, 7);
    assert_eq!(undone.send(undo(1, 1, 0)), 0);
    assert_eq!(undone.step(50), []);
    assert_eq!(rule(&undone.state, &undone.lent.store), Rule::Idle);
}
