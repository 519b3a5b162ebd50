//! Document 01's listing, byte for byte, and every example of 'On the last tick and past it'.

mod common;

use common::{boundary, placed, plain, reading, undo, Bench, SINGLE, USUAL};
use reference::node::{bucket_of, is_stable, mean};
use reference::playback::{play, MODES};

const INPUT: &str = "\
lines=2 bucket=100 window=1 hold=50 low=-1000 high=1000 displays=1
now=0 line=1 kind=S id=1 time=10 meter=3 value=7
now=0 line=1 kind=B id=0 time=100 meter=0 value=0
now=50 line=0 kind=P id=0 time=0 meter=0 value=0
now=60 line=2 kind=S id=1 time=99 meter=3 value=-2
now=61 line=2 kind=B id=0 time=100 meter=0 value=0
now=62 line=0 kind=P id=0 time=0 meter=0 value=0
now=62 line=0 kind=P id=0 time=0 meter=0 value=0
now=62 line=0 kind=P id=0 time=0 meter=0 value=0
now=62 line=0 kind=P id=0 time=0 meter=0 value=0
";

const OUTPUT: &str = "\
answer=0 records=0 state=stable
answer=0 records=0 state=stable
answer=0 records=0 state=stable
answer=0 records=1 state=failure
kind=T id=1 time=0 meter=3 count=1 sum=7 mean=7 last=7
answer=0 records=0 state=failure
answer=0 records=0 state=failure
answer=0 records=1 state=correcting
kind=U id=0 time=0 meter=0 count=0 sum=0 mean=0 last=0
answer=0 records=2 state=correcting
kind=S id=1 time=0 meter=3 count=2 sum=5 mean=2 last=-2
kind=B id=0 time=100 meter=0 count=0 sum=0 mean=0 last=0
answer=0 records=1 state=stable
kind=R id=0 time=0 meter=0 count=0 sum=0 mean=0 last=0
answer=0 records=0 state=stable
";

#[test]
fn listing() {
    for (name, mode) in MODES {
        let mut output = Vec::new();
        play(mode, INPUT.as_bytes(), &mut output).unwrap();
        assert_eq!(String::from_utf8(output).unwrap(), OUTPUT, "{name}");
    }
}

#[test]
fn buckets_of_times() {
    assert_eq!(bucket_of(99, 100), 0);
    assert_eq!(bucket_of(100, 100), 1);
    assert_eq!(bucket_of(4_294_967_295, 100), 42_949_672);
}

#[test]
fn no_boundary_finishes_the_last_bucket() {
    let mut bench = Bench::open(SINGLE);
    bench.boundaries(u32::MAX);
    assert!(is_stable(&bench.state, 42_949_671));
    assert!(!is_stable(&bench.state, 42_949_672));
}

#[test]
fn boundaries_finish_a_bucket() {
    let mut bench = Bench::open(USUAL);
    bench.state.heads[0].boundary = 99;
    bench.state.heads[1].boundary = 100;
    assert!(!is_stable(&bench.state, 0));
    bench.state.heads[0].boundary = 100;
    assert!(is_stable(&bench.state, 0));
}

#[test]
fn boundaries_finish_a_bucket_in_calls() {
    let mut bench = Bench::open(USUAL);
    assert_eq!(bench.send(boundary(0, 1, 99)), 0);
    assert_eq!(bench.send(boundary(0, 2, 100)), 0);
    assert_eq!(bench.step(0), []);
    assert_eq!(bench.state.c, 0);
    assert_eq!(bench.send(boundary(0, 1, 100)), 0);
    assert_eq!(bench.step(0).len(), 1);
    assert_eq!(bench.state.c, 1);
}

#[test]
fn times_on_the_last_tick_count_once() {
    let mut bench = Bench::open(SINGLE);
    assert_eq!(bench.send(reading(0, 1, 'S', 1, 99, 1)), 0);
    assert_eq!(bench.send(reading(0, 1, 'S', 2, 100, 10)), 0);
    assert_eq!(bench.send(boundary(0, 1, 200)), 0);
    assert_eq!(bench.step(0)[0].sum, 1);
    assert_eq!(bench.step(0)[0].sum, 10);
}

#[test]
fn means() {
    assert_eq!(mean(5, 2), 2);
    assert_eq!(mean(-5, 2), -2);
    assert_eq!(mean(7, 2), 4);
    assert_eq!(mean(7, 3), 2);
    assert_eq!(mean(-8, 3), -3);
}

#[test]
fn equal_times_go_by_line() {
    let mut bench = Bench::open(USUAL);
    bench.place(1, placed('S', 4, 10, 11));
    bench.place(2, placed('S', 1, 10, 22));
    bench.boundaries(100);
    assert_eq!(bench.step(0)[0].last, 22);
}

#[test]
fn undo_between_the_ids() {
    let mut bench = Bench::open(SINGLE);
    for id in 1..=5 {
        let kind = if id <= 2 { 'S' } else { 'T' };
        assert_eq!(bench.send(reading(0, 1, kind, id, 10, 0)), 0);
    }
    let mut lower = bench.clone();
    assert_eq!(lower.send(undo(1, 1, 2)), 0);
    assert_eq!(lower.kept(1).len(), 2);
    assert_eq!(bench.send(undo(1, 1, 1)), 11);
    let before = bench.clone();
    assert_eq!(bench.send(undo(9, 1, 5)), 0);
    assert_eq!(bench.state.clock, 9);
    bench.state.clock = before.state.clock;
    assert_eq!(bench, before);
}

#[test]
fn hold_runs_out_at_the_tick() {
    let mut bench = Bench::open(SINGLE);
    assert_eq!(bench.send(reading(0, 1, 'S', 1, 10, 7)), 0);
    assert_eq!(bench.step(49), []);
    assert_eq!(bench.step(50)[0].kind, b'T');
    assert_eq!(bench.send(plain(50, 1, 'R')), 0);
}
