//! Decisions on what a host's state and store may hold, up to the limits of refusal 4 and past
//! them. A small test for each.

mod common;

use common::{boundary, meter, placed, plain, reading, undo, Bench, SINGLE, USUAL};
use reference::node::{rule, Reading, Rule, Word};
use reference::record::Record;

// A meter at the greatest count still takes readings; afterwards it is out of shape.
#[test]
fn count_past_the_limit() {
    let mut bench = Bench::open("lines=1 bucket=100 window=2 hold=0 low=-9 high=9 displays=1\n");
    bench.state.operator.meters[3] = meter(32_768, i64::from(i32::MAX) * 32_768, 0);
    for id in 1..=256 {
        bench.place(1, placed('S', id, 10, 9));
    }
    bench.boundaries(100);
    let mut closing = bench.clone();
    assert_eq!(bench.step(0), []);
    assert_eq!(bench.state.operator.meters[3].count, 33_024);
    assert_eq!(bench.try_step(0), 4);
    closing.state.settings.window = 1;
    let results = closing.step(0);
    assert_eq!(results[0].count, 33_024);
    assert_eq!(results[0].mean, 2_130_836_487);
    assert_eq!(closing.try_step(0), 0);
}

// Only the places given up are zeroed; what lies behind the kept readings stays.
#[test]
fn junk_stays() {
    let junk = placed('S', 77, 10, 7);
    let mut bench = Bench::open(SINGLE);
    bench.lent.store[..300].fill(junk);
    bench.state.heads[0].last_id = 9;
    bench.state.heads[0].kept = 0;
    bench.place(1, placed('S', 1, 10, 1));
    bench.place(1, placed('S', 2, 10, 1));
    bench.place(1, placed('S', 3, 110, 1));
    assert_eq!(bench.send(undo(0, 1, 2)), 0);
    assert_eq!(bench.lent.store[2], Reading::ZERO);
    assert!(bench.lent.store[3..300].iter().all(|place| *place == junk));
    bench.boundaries(100);
    assert_eq!(bench.step(0)[0].sum, 2);
    assert_eq!(bench.lent.store[..3], [Reading::ZERO; 3]);
    assert!(bench.lent.store[3..300].iter().all(|place| *place == junk));
    assert_eq!(bench.send(reading(0, 1, 'S', 3, 110, 5)), 0);
    assert_eq!(bench.lent.store[0], placed('S', 3, 110, 5));
}

// Arrival plus hold is a number without width, and an arrival may lie ahead of the clock.
#[test]
fn holds_past_the_clock() {
    let mut bench =
        Bench::open("lines=1 bucket=100 window=1 hold=864000 low=0 high=9 displays=1\n");
    assert_eq!(bench.send(reading(u32::MAX, 1, 'S', 1, 10, 1)), 0);
    assert_eq!(bench.step(u32::MAX), []);
    let mut ahead = Bench::open("lines=1 bucket=100 window=1 hold=0 low=0 high=9 displays=1\n");
    ahead.place(1, placed('S', 1, 10, 1));
    ahead.lent.store[0].arrival = 10;
    assert_eq!(ahead.step(9), []);
    assert_eq!(ahead.step(10).len(), 1);
}

// Refusal 13 looks at the kept readings, the undo's lower end at the state's last stable id.
#[test]
fn tentative_by_the_store() {
    let mut bench = Bench::open(SINGLE);
    bench.place(1, placed('T', 1, 10, 1));
    bench.state.heads[0].last_id = 4;
    bench.state.heads[0].last_stable_id = 4;
    assert_eq!(bench.send(reading(0, 1, 'S', 5, 10, 1)), 13);
    assert_eq!(bench.send(boundary(0, 1, 10)), 13);
    assert_eq!(bench.send(plain(0, 1, 'R')), 13);
    assert_eq!(bench.send(undo(0, 1, 3)), 11);
    let mut apart = Bench::open(SINGLE);
    apart.state.heads[0].last_id = 4;
    assert_eq!(apart.send(plain(0, 1, 'R')), 0);
    assert_eq!(apart.send(reading(0, 1, 'S', 5, 10, 1)), 0);
}

// Another line's tentative reading does not matter.
#[test]
fn only_the_own_line() {
    let mut bench = Bench::open(USUAL);
    assert_eq!(bench.send(reading(0, 1, 'T', 1, 10, 1)), 0);
    assert_eq!(bench.send(reading(0, 2, 'S', 1, 10, 1)), 0);
    assert_eq!(bench.send(reading(0, 1, 'S', 2, 10, 1)), 13);
}

// The first kept reading may have any id.
#[test]
fn first_id() {
    let mut bench = Bench::open(SINGLE);
    bench.place(1, placed('S', 0, 10, 1));
    assert_eq!(bench.try_step(0), 0);
    bench.place(1, placed('S', 0, 10, 1));
    assert_eq!(bench.try_step(0), 4);
    bench.lent.store[1].id = 1;
    assert_eq!(bench.try_step(0), 0);
}

// Kinds in the store are letters, so a zeroed place counted as kept is out of shape.
#[test]
fn kinds_are_letters() {
    let mut bench = Bench::open(SINGLE);
    bench.state.heads[0].kept = 1;
    assert_eq!(bench.try_step(0), 4);
    for kind in ['B', 'U', 'R', 'P', 's', 't'] {
        bench.lent.store[0] = placed(kind, 1, 10, 1);
        assert_eq!(bench.try_step(0), 4, "{kind}");
    }
    bench.lent.store[0] = placed('T', 1, 10, 1);
    assert_eq!(bench.try_step(0), 0);
}

fn at(settings: &str, c: u32, p: u32, word: Word) -> Bench {
    let mut bench = Bench::open(settings);
    (bench.state.c, bench.state.p, bench.state.word) = (c, p, word);
    bench.boundaries(u32::MAX);
    bench
}

// One limit for c and p whatever the bucket length, and no end of a bucket wraps.
#[test]
fn greatest_buckets() {
    let long = "lines=1 bucket=36000 window=1 hold=0 low=0 high=9 displays=1\n";
    let top = 42_949_673;
    assert_eq!(at(long, top, top, Word::Stable).step(0), []);
    let mut closing = at(long, top, top, Word::Correcting);
    assert_eq!(closing.step(0), [Record::done()]);
    assert_eq!(at(long, top + 1, top + 1, Word::Stable).try_step(0), 4);
    assert_eq!(at(long, 5, top + 1, Word::Failure).try_step(0), 4);
    assert_eq!(at(long, 5, top, Word::Failure).try_step(0), 0);
    assert_eq!(at(long, u32::MAX, 5, Word::Stable).try_step(0), 4);
    let all = at(long, u32::MAX, u32::MAX, Word::Stable);
    assert_eq!(all.clone().try_step(0), 4);
    for (length, last) in [(100, 42_949_672), (128, 33_554_431), (256, 16_777_215)] {
        let text = format!("lines=1 bucket={length} window=1 hold=0 low=0 high=9 displays=1\n");
        let end = at(&text, last, last, Word::Stable);
        assert_eq!(rule(&end.state, &end.lent.store), Rule::Idle);
        let before = at(&text, last - 1, last - 1, Word::Stable);
        assert_eq!(rule(&before.state, &before.lent.store), Rule::WorkStable);
    }
}

// The word and the numbering are tied to c and p.
#[test]
fn words_and_numbers() {
    assert_eq!(at(SINGLE, 5, 5, Word::Failure).try_step(0), 4);
    assert_eq!(at(SINGLE, 5, 6, Word::Stable).try_step(0), 4);
    assert_eq!(at(SINGLE, 5, 6, Word::Correcting).try_step(0), 4);
    assert_eq!(at(SINGLE, 6, 5, Word::Failure).try_step(0), 4);
    let numbers = [
        (5, 5, Word::Stable, 320, 320, 0),
        (5, 5, Word::Stable, 321, 321, 4),
        (5, 5, Word::Stable, 320, 319, 4),
        (5, 5, Word::Stable, 319, 320, 4),
        (5, 7, Word::Failure, 320, 448, 0),
        (5, 7, Word::Failure, 320, 449, 4),
        (5, 7, Word::Failure, 320, 319, 4),
        (5, 7, Word::Failure, 321, 400, 4),
        (5, 7, Word::Failure, u64::MAX, u64::MAX, 4),
    ];
    for (c, p, word, stable, newest, answer) in numbers {
        let mut bench = at(SINGLE, c, p, word);
        bench.state.checkpoint.newest = stable;
        bench.state.operator.newest = newest;
        bench.state.acknowledged[0] = stable;
        assert_eq!(bench.try_step(0), answer, "{stable} {newest}");
    }
}

// The greatest result id still fits, from a tentative bucket at the very end.
#[test]
fn greatest_result_id() {
    let mut bench = at(SINGLE, 42_949_671, 42_949_672, Word::Failure);
    bench.boundaries(0);
    bench.state.operator.newest = 64 * 42_949_672;
    bench.place(1, placed('S', 1, u32::MAX, 1));
    let results = bench.step(50);
    assert_eq!(results[0].id, 2_748_779_009);
    assert_eq!(results[0].time, 4_294_967_200);
    assert_eq!(bench.state.p, 42_949_673);
    assert_eq!(bench.step(60), []);
}

// Oddities without a refusal pass.
#[test]
fn oddities_pass() {
    let mut bench = Bench::open(SINGLE);
    (bench.state.c, bench.state.p) = (7, 7);
    bench.state.clock = 4_000_000_000;
    bench.state.heads[0].boundary = 500;
    bench.place(1, placed('S', 1, 3, 5_000));
    bench.place(1, placed('S', 2, 750, 6));
    bench.state.operator.meters[3].last = 99;
    bench.state.checkpoint.meters[9] = meter(3, 3, 3);
    bench.state.heads[0].last_id = 2;
    assert_eq!(bench.send(reading(4_000_000_000, 1, 'S', 3, 500, 1)), 0);
    let results = bench.step(4_000_000_000);
    assert_eq!((results[0].kind, results[0].sum), (b'T', 6));
}

// A meter without a count keeps its last value until the operator is cleared.
#[test]
fn last_without_a_count() {
    let mut bench =
        Bench::open("lines=1 bucket=100 window=2 hold=50 low=-1000 high=1000 displays=1\n");
    bench.state.operator.meters[3].last = 99;
    bench.boundaries(200);
    assert_eq!(bench.step(0), []);
    assert_eq!(bench.state.operator.meters[3], meter(0, 0, 99));
    assert_eq!(bench.step(0), [Record::boundary(200)]);
    assert_eq!(bench.state.operator.meters[3], meter(0, 0, 0));
}

// A setting outside its limits takes the state out of shape.
#[test]
fn settings_of_the_state() {
    type Change = fn(&mut Bench);
    let changes: [Change; 7] = [
        |bench| bench.state.settings.bucket = 99,
        |bench| bench.state.settings.bucket = 36_001,
        |bench| bench.state.settings.window = 0,
        |bench| bench.state.settings.window = 17,
        |bench| bench.state.settings.hold = 864_001,
        |bench| bench.state.settings.low = 1_001,
        |bench| bench.state.heads[0].kept = 257,
    ];
    for change in changes {
        let mut bench = Bench::open(SINGLE);
        change(&mut bench);
        assert_eq!(bench.try_step(0), 4);
    }
}
