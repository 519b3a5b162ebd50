//! Decisions on the calls of displays (document 02, W2), a small test for each.

mod common;

use common::{plain, spell, Bench, SINGLE, TWO_DISPLAYS, UNTOUCHED};
use reference::node::{call, SENT_BYTES};
use reference::record::{encode, AREA_BYTES};

/// Eight windows of 64 results.
const FULL: [u8; 8] = [64; 8];

// A display may fetch what it has acknowledged itself, as long as another has not.
#[test]
fn fetch_of_what_is_acknowledged() {
    let mut bench = Bench::open(TWO_DISPLAYS);
    let results = bench.windows(&[20]);
    assert_eq!(bench.acknowledge(1, 10), 0);
    assert_eq!(bench.acknowledge(2, 5), 0);
    assert_eq!(bench.fetch(1, 6), results[5..]);
    assert_eq!(bench.fetch(2, 6), results[5..]);
    assert_eq!(bench.try_fetch(1, 5), 17);
    assert_eq!(bench.try_fetch(2, 5), 17);
}

// An acknowledgement gives up what all have acknowledged by it: nothing while another is behind.
#[test]
fn what_an_acknowledgement_gives_up() {
    let mut bench = Bench::open(TWO_DISPLAYS);
    let results = bench.windows(&[20]);
    let before = bench.lent.clone();
    assert_eq!(bench.acknowledge(1, 20), 0);
    assert_eq!(bench.lent, before);
    assert_eq!(bench.state.acknowledged, [20, 0, 0, 0]);
    assert_eq!(bench.acknowledge(2, 7), 0);
    assert_eq!(bench.lent.sent[..7 * 32], [0; 7 * 32]);
    assert_eq!(bench.lent.sent[7 * 32..8 * 32], encode(&results[7]));
    assert_eq!(bench.lent.store, before.store);
    assert_eq!(bench.state.acknowledged, [20, 7, 0, 0]);
    assert_eq!(bench.acknowledge(2, 20), 0);
    assert_eq!(bench.lent.sent, [0; SENT_BYTES]);
}

// An acknowledgement of the display's last id changes nothing; one below it or above the newest
// stable id is 17.
#[test]
fn which_acknowledgements_fit() {
    let mut bench = Bench::open(TWO_DISPLAYS);
    let fresh = bench.clone();
    assert_eq!(bench.acknowledge(1, 0), 0);
    assert_eq!(bench, fresh);
    assert_eq!(bench.acknowledge(1, 1), 17);
    bench.windows(&[20]);
    assert_eq!(bench.acknowledge(1, 10), 0);
    let before = bench.clone();
    assert_eq!(bench.acknowledge(1, 10), 0);
    assert_eq!(bench, before);
    for id in [0, 9, 21, 1 << 32, u64::MAX] {
        assert_eq!(bench.acknowledge(1, id), 17, "{id}");
    }
    assert_eq!(bench.acknowledge(2, 0), 0);
    assert_eq!(bench.acknowledge(1, 20), 0);
}

// Both calls look for 3, 4, 5, 16 and 17, in this order; the area is asked for whole.
#[test]
fn refusals_of_display_calls() {
    let mut bench = Bench::open(TWO_DISPLAYS);
    bench.windows(&[2]);
    for display in [0, 3, 5, u32::MAX] {
        assert_eq!(bench.acknowledge(display, 99), 16);
        assert_eq!(bench.try_fetch(display, 99), 16);
    }
    assert_eq!(bench.acknowledge(2, 99), 17);
    assert_eq!(bench.try_fetch(2, 99), 17);
    bench.area = vec![UNTOUCHED; AREA_BYTES - 1];
    assert_eq!(bench.acknowledge(9, 99), 5);
    assert_eq!(bench.try_fetch(9, 99), 5);
    assert_eq!(bench.try_fetch(1, 3), 5);
    bench.state.acknowledged[0] = 3;
    assert_eq!(bench.acknowledge(9, 99), 4);
    assert_eq!(bench.try_fetch(9, 99), 4);
    bench.lent.sent.pop();
    assert_eq!(bench.acknowledge(9, 99), 3);
    assert_eq!(bench.try_fetch(9, 99), 3);
}

// A fetch gives as many as there are up to 64, from any id held or the next one.
#[test]
fn which_fetches_fit() {
    let mut bench = Bench::open(SINGLE);
    assert_eq!(bench.fetch(1, 1), []);
    assert_eq!(bench.try_fetch(1, 0), 17);
    assert_eq!(bench.try_fetch(1, 2), 17);
    let results = bench.windows(&[64, 36]);
    assert_eq!(bench.acknowledge(1, 10), 0);
    for (id, count) in [(11, 64), (36, 64), (37, 64), (38, 63), (100, 1), (101, 0)] {
        bench.area = vec![UNTOUCHED; AREA_BYTES + 3];
        let first = id as usize - 1;
        assert_eq!(bench.fetch(1, id), results[first..first + count], "{id}");
        assert!(bench.area[32 * count..].iter().all(|&b| b == UNTOUCHED));
    }
    for id in [0, 1, 10, 102, 1 << 32, u64::MAX - 1, u64::MAX] {
        assert_eq!(bench.try_fetch(1, id), 17, "{id}");
    }
}

// A fetch goes on past the last place.
#[test]
fn fetch_across_the_last_place() {
    let mut bench = Bench::open(SINGLE);
    let mut results = bench.windows(&FULL);
    assert_eq!(bench.acknowledge(1, 470), 0);
    results.extend(bench.windows(&[30]));
    assert_eq!(bench.fetch(1, 480), results[479..]);
    assert_eq!(bench.fetch(1, 471), results[470..534]);
}

// Display calls have no `now`: none is refused for it, and the clock stays.
#[test]
fn no_clock() {
    let mut bench = Bench::open(SINGLE);
    bench.windows(&[3]);
    bench.step(4_000_000_000);
    assert_eq!(bench.acknowledge(1, 2), 0);
    assert_eq!(bench.fetch(1, 3).len(), 1);
    assert_eq!(bench.state.clock, 4_000_000_000);
}

// What a fetch gives are the bytes that the steps gave.
#[test]
fn fetched_bytes() {
    let mut bench = Bench::open(SINGLE);
    bench.window(7);
    let text = spell(&plain(0, 0, 'P'));
    let Bench { state, lent, area } = &mut bench;
    assert_eq!(call(state, lent, &text, area), (0, 8));
    let given = bench.area[..7 * 32].to_vec();
    bench.area = vec![UNTOUCHED; AREA_BYTES];
    assert_eq!(bench.fetch(1, 1).len(), 7);
    assert_eq!(bench.area[..7 * 32], given);
    assert_eq!(bench.area[7 * 32..], [UNTOUCHED; AREA_BYTES - 7 * 32]);
}
