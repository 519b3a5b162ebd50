//! Decisions on the send-back store and on states that hold one (document 02, W2), a small test for each.

mod common;

use common::{placed, reading, Bench, SINGLE, TWO_DISPLAYS, UNTOUCHED};
use reference::node::{open, Lent, Word, HELD, SENT_BYTES};
use reference::record::{encode, Record, RECORD_BYTES};

/// Eight windows of 64 results.
const FULL: [u8; 8] = [64; 8];

// The opening clears what was acknowledged, and zeroes the 512 places and nothing behind them.
#[test]
fn opening() {
    let mut lent = Lent::zeroed();
    lent.sent = vec![7; SENT_BYTES + 5];
    let state = open(TWO_DISPLAYS.as_bytes(), &mut lent).unwrap();
    assert_eq!(state.acknowledged, [0; 4]);
    assert!(lent.sent[..SENT_BYTES].iter().all(|&byte| byte == 0));
    assert_eq!(lent.sent[SENT_BYTES..], [7; 5]);
    assert_eq!((HELD, SENT_BYTES), (512, 16_384));
}

// Either store short is 3, after 1 and 2; then neither has been zeroed.
#[test]
fn opening_over_a_short_send_back_store() {
    let short = Lent {
        store: vec![placed('S', 1, 2, 3); 256],
        sent: vec![7; SENT_BYTES - 1],
    };
    let mut lent = short.clone();
    assert_eq!(open(SINGLE.as_bytes(), &mut lent).unwrap_err() as u32, 3);
    let none = SINGLE.replace("displays=1", "displays=0");
    assert_eq!(open(none.as_bytes(), &mut lent).unwrap_err() as u32, 2);
    assert_eq!(open(b"", &mut lent).unwrap_err() as u32, 1);
    assert_eq!(lent, short);
    lent.sent.push(7);
    let mut other = lent.clone();
    other.store.pop();
    assert_eq!(open(SINGLE.as_bytes(), &mut other).unwrap_err() as u32, 3);
    assert!(other.sent.iter().all(|&byte| byte == 7));
    assert!(open(SINGLE.as_bytes(), &mut lent).is_ok());
}

// Either store short is 3 before any 4, for every call.
#[test]
fn short_before_out_of_shape() {
    let mut bench = Bench::open(SINGLE);
    bench.state.settings.displays = 5;
    assert_eq!(bench.try_step(0), 4);
    bench.lent.sent.truncate(SENT_BYTES - 1);
    assert_eq!(bench.try_step(0), 3);
    assert_eq!(bench.acknowledge(1, 0), 3);
    assert_eq!(bench.try_fetch(1, 1), 3);
    bench.lent.sent.clear();
    assert_eq!(bench.try_step(0), 3);
    bench.lent.sent = vec![0; SENT_BYTES + 77];
    bench.lent.store.truncate(255);
    assert_eq!(bench.acknowledge(1, 0), 3);
    assert_eq!(bench.try_fetch(1, 1), 3);
}

// A number of displays outside its limits is 4, and indexes nothing.
#[test]
fn displays_of_the_state() {
    for displays in [0, 5, u32::MAX] {
        let mut bench = Bench::open(SINGLE);
        bench.state.settings.displays = displays;
        assert_eq!(bench.try_step(0), 4);
        assert_eq!(bench.acknowledge(1, 0), 4);
        assert_eq!(bench.try_fetch(5, 1), 4);
    }
    let mut bench = Bench::open(SINGLE);
    bench.state.settings.displays = 4;
    assert_eq!(bench.try_step(0), 0);
    assert_eq!(bench.acknowledge(4, 0), 0);
}

// Entries past `displays` are not looked at, are no part of the least, and stay.
#[test]
fn entries_past_the_displays() {
    let mut bench = Bench::open(SINGLE);
    bench.windows(&[5]);
    let junk = [u64::MAX, 4, 0];
    bench.state.acknowledged[1..].copy_from_slice(&junk);
    assert_eq!(bench.fetch(1, 1).len(), 5);
    assert_eq!(bench.acknowledge(1, 3), 0);
    assert_eq!(bench.state.acknowledged, [3, u64::MAX, 4, 0]);
    assert_eq!(bench.held(3), [0; RECORD_BYTES]);
    assert_eq!(bench.held(4)[0], b'S');
    assert_eq!(bench.try_fetch(1, 3), 17);
    bench.windows(&[1]);
    assert_eq!(bench.state.acknowledged[1..], junk);
    assert_eq!(bench.acknowledge(2, 3), 16);
}

// Result n stands at place (n - 1) modulo 512, as its record's bytes.
#[test]
fn places() {
    let mut bench = Bench::open(SINGLE);
    let results = bench.windows(&FULL);
    assert_eq!(results.len(), 512);
    assert_eq!(bench.lent.sent[..32], encode(&results[0]));
    assert_eq!(bench.lent.sent[511 * 32..], encode(&results[511]));
    assert_eq!(bench.acknowledge(1, 3), 0);
    let more = bench.windows(&[2]);
    assert_eq!((more[0].id, more[1].id), (513, 514));
    assert_eq!(bench.lent.sent[..32], encode(&more[0]));
    assert_eq!(bench.lent.sent[32..64], encode(&more[1]));
    assert_eq!(bench.lent.sent[64..96], [0; 32]);
    assert_eq!(bench.lent.sent[96..128], encode(&results[3]));
}

// Tentative results are neither held, nor to be acknowledged or fetched: the newest stable id is the
// checkpoint's.
#[test]
fn newest_stable_id() {
    let mut bench = Bench::open(SINGLE);
    bench.windows(&[2]);
    assert_eq!(bench.send(reading(0, 1, 'S', 1, 110, 7)), 0);
    assert_eq!(bench.step(50)[0].id, 3);
    assert_eq!(bench.state.word, Word::Failure);
    assert_eq!(bench.acknowledge(1, 3), 17);
    assert_eq!(bench.fetch(1, 2).len(), 1);
    assert_eq!(bench.fetch(1, 3), []);
    assert_eq!(bench.try_fetch(1, 4), 17);
    assert_eq!(bench.held(3), [0; RECORD_BYTES]);
    assert_eq!(bench.acknowledge(1, 2), 0);
    assert_eq!(bench.fetch(1, 3), []);
}

/// A state with so many results out and acknowledged up to an id, its held places filled.
fn at(newest: u64, acknowledged: &[u64]) -> Bench {
    let mut bench = Bench::open(TWO_DISPLAYS);
    (bench.state.c, bench.state.p) = (1_000, 1_000);
    bench.state.checkpoint.newest = newest;
    bench.state.operator.newest = newest;
    bench.state.acknowledged[..2].copy_from_slice(acknowledged);
    for id in 1..=newest {
        bench.held(id)[0] = b'S';
        bench.held(id)[4..8].copy_from_slice(&(id as u32).to_le_bytes());
    }
    bench
}

// A display's last id is at most the newest stable one, and at most 512 below it.
#[test]
fn distances() {
    let cases = [
        (600, [600, 600], 0),
        (600, [88, 600], 0),
        (600, [600, 88], 0),
        (600, [87, 600], 4),
        (600, [600, 87], 4),
        (600, [601, 600], 4),
        (600, [600, u64::MAX], 4),
        (600, [0, 0], 4),
        (512, [0, 512], 0),
        (0, [0, 0], 0),
        (0, [0, 1], 4),
        (64_000, [0, 0], 4),
    ];
    for (newest, acknowledged, answer) in cases {
        let mut bench = at(newest, &acknowledged);
        assert_eq!(bench.try_step(0), answer, "{newest} {acknowledged:?}");
        let own = bench.state.acknowledged[1];
        assert_eq!(bench.acknowledge(2, own), answer);
        assert_eq!(bench.try_fetch(2, newest + 1), answer);
    }
    let mut bench = at(64_000, &[63_999, 64_000]);
    assert_eq!(bench.try_step(0), 0);
    bench.state.checkpoint.newest += 1;
    bench.state.operator.newest += 1;
    assert_eq!(bench.try_step(0), 4);
}

// A held place is in shape by its kind and its id; all else in it is sent as it stands, but that a
// record has two zero bytes.
#[test]
fn held_places() {
    for (offset, byte) in [(0, b'T'), (0, 0), (0, b's'), (4, 7), (5, 9), (7, 1)] {
        for id in [501, 550, 600] {
            let mut bench = at(600, &[500, 600]);
            bench.held(id)[offset] = byte;
            assert_eq!(bench.try_step(0), 4, "{offset} of {id}");
            assert_eq!(bench.acknowledge(2, 600), 4);
            assert_eq!(bench.try_fetch(1, 560), 4);
        }
    }
    let mut bench = at(600, &[500, 600]);
    let place = bench.held(550);
    place[1..4].copy_from_slice(&[200, 9, 9]);
    place[8..].fill(0xFE);
    let due = Record {
        kind: b'S',
        meter: 200,
        id: 550,
        time: 0xFEFE_FEFE,
        count: 0xFEFE_FEFE,
        sum: -0x0101_0101_0101_0102,
        mean: -0x0101_0102,
        last: -0x0101_0102,
    };
    assert_eq!(bench.fetch(1, 550)[0], due);
    assert_eq!(bench.area[..4], [b'S', 200, 0, 0]);
    assert_eq!(bench.held(550)[2..4], [9, 9]);
}

// Junk in a free place is in shape, stays, and is overwritten by the result that takes the place.
#[test]
fn junk_in_free_places() {
    let mut bench = at(600, &[500, 598]);
    bench.lent.sent.extend([UNTOUCHED; 9]);
    for id in [500, 601, 602, 603, 1_012] {
        bench.held(id).fill(0xEE);
    }
    bench.state.p = 1_000;
    bench.window(2);
    let results = bench.step(0);
    assert_eq!((results[0].id, results[1].id), (601, 602));
    assert_eq!(*bench.held(601), encode(&results[0]));
    assert_eq!(*bench.held(602), encode(&results[1]));
    assert_eq!(bench.acknowledge(1, 598), 0);
    for id in [500, 603, 1_012] {
        assert_eq!(bench.held(id), [0xEE; RECORD_BYTES], "{id}");
    }
    for id in 501..=598 {
        assert_eq!(bench.held(id), [0; RECORD_BYTES], "{id}");
    }
    assert_eq!(bench.held(599)[0], b'S');
    assert_eq!(bench.lent.sent[SENT_BYTES..], [UNTOUCHED; 9]);
}
