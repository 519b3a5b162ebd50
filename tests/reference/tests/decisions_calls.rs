//! Decisions on calls and their refusals, a small test for each.

mod common;

use common::{boundary, placed, plain, reading, spell, undo, Bench, SINGLE, UNTOUCHED, USUAL};
use reference::node::{Reading, Word};
use reference::record::AREA_BYTES;
use reference::text::Call;

// A step's line is 8, every other field that a kind does not use is 9.
#[test]
fn unused_fields() {
    let mut bench = Bench::open(USUAL);
    assert_eq!(bench.send(plain(0, 1, 'P')), 8);
    for kind in ['S', 'T', 'B', 'U', 'R'] {
        assert_eq!(bench.send(plain(0, 0, kind)), 8);
        assert_eq!(bench.send(plain(0, 3, kind)), 8);
    }
    let with = |call: Call, field: usize| match field {
        0 => Call { id: 1, ..call },
        1 => Call { time: 1, ..call },
        2 => Call { meter: 64, ..call },
        _ => Call { value: -1, ..call },
    };
    let used = [('B', 1), ('U', 0), ('R', 4), ('P', 4)];
    for (kind, used) in used {
        for field in (0..4).filter(|&field| field != used) {
            let call = plain(0, u8::from(kind != 'P'), kind);
            assert_eq!(bench.send(with(call, field)), 9, "{kind} {field}");
        }
    }
    let step = Call {
        id: 1,
        ..plain(0, 9, 'P')
    };
    assert_eq!(bench.send(step), 8);
}

// The first refusal by number is given.
#[test]
fn first_of_several() {
    let mut bench = Bench::open(USUAL);
    assert_eq!(bench.send(boundary(5, 1, 100)), 0);
    for id in 1..=255 {
        assert_eq!(bench.send(reading(5, 1, 'S', id, 100, 0)), 0);
    }
    assert_eq!(bench.send(reading(5, 1, 'T', 256, 100, 0)), 0);
    assert_eq!(bench.send(reading(5, 1, 'S', 257, 100, 0)), 13);
    assert_eq!(bench.send(reading(5, 1, 'T', 257, 100, 0)), 14);
    let mut worst = reading(4, 3, 'S', 9, 99, 0);
    worst.meter = 64;
    assert_eq!(bench.send(worst), 7);
    worst.now = 5;
    assert_eq!(bench.send(worst), 8);
    worst.line = 1;
    assert_eq!(bench.send(worst), 10);
    worst.meter = 63;
    assert_eq!(bench.send(worst), 11);
    worst.id = 257;
    assert_eq!(bench.send(worst), 12);
    worst.time = 100;
    assert_eq!(bench.send(worst), 13);
    let odd = Call {
        id: 9,
        meter: 64,
        ..boundary(5, 1, 0)
    };
    assert_eq!(bench.send(odd), 9);
    assert_eq!(bench.send(boundary(5, 1, 99)), 12);
    assert_eq!(bench.send(boundary(5, 1, 100)), 13);
}

// Every call needs the area, before its text is looked at; any longer one will do.
#[test]
fn areas_of_calls() {
    let calls = [
        reading(0, 1, 'S', 1, 0, 0),
        reading(0, 1, 'T', 1, 0, 0),
        boundary(0, 1, 0),
        undo(0, 1, 0),
        plain(0, 1, 'R'),
        plain(0, 0, 'P'),
    ];
    for call in calls {
        let mut bench = Bench::open(USUAL);
        bench.area = vec![UNTOUCHED; AREA_BYTES - 1];
        assert_eq!(bench.send(call), 5);
        assert_eq!(bench.text(b"x"), (5, 0));
        bench.area = vec![UNTOUCHED; AREA_BYTES + 5];
        assert_eq!(bench.send(call), 0);
    }
    let mut bench = Bench::open(USUAL);
    bench.area.clear();
    bench.state.p = 1;
    assert_eq!(bench.try_step(0), 4);
}

// Bytes of the area behind the last record stay.
#[test]
fn bytes_behind_the_records() {
    let mut bench = Bench::open(SINGLE);
    for meter in 0..64 {
        let call = Call {
            meter,
            ..reading(0, 1, 'S', u32::from(meter) + 1, 9, 1)
        };
        assert_eq!(bench.send(call), 0);
    }
    assert_eq!(bench.step(49), []);
    assert_eq!(bench.area, [UNTOUCHED; AREA_BYTES]);
    assert_eq!(bench.step(50).len(), 64);
    assert_eq!(bench.area[64 * 32..], [UNTOUCHED; 32]);
    assert_eq!(bench.send(boundary(50, 1, 100)), 0);
    assert_eq!(bench.step(50).len(), 1);
    let results = bench.step(50);
    assert_eq!(results.len(), 65);
    assert_eq!((results[63].id, results[63].meter), (64, 63));
}

// An undo goes back to the last stable id at most; it sets its line's last id and the clock, and
// strikes what the line keeps above it.
#[test]
fn what_an_undo_touches() {
    let mut bench = Bench::open(USUAL);
    assert_eq!(bench.send(undo(0, 1, 0)), 0);
    assert_eq!(bench.send(undo(0, 1, 1)), 11);
    assert_eq!(bench.send(boundary(0, 1, 7)), 0);
    for id in 1..=3 {
        assert_eq!(bench.send(reading(0, 1, 'T', id, 10, 7)), 0);
    }
    assert_eq!(bench.step(50).len(), 1);
    let before = bench.clone();
    assert_eq!(bench.send(undo(60, 1, 0)), 0);
    let mut due = before;
    due.state.clock = 60;
    due.state.heads[0].last_id = 0;
    due.state.heads[0].kept = 0;
    due.lent.store[..3].fill(Reading::ZERO);
    assert_eq!(bench, due);
    assert_eq!(bench.state.word, Word::Failure);
    assert_eq!(bench.step(61), []);
}

// Which ids and boundaries a call moves.
#[test]
fn ids_and_boundaries() {
    let mut bench = Bench::open(SINGLE);
    assert_eq!(bench.send(reading(0, 1, 'S', 1, 40, 7)), 0);
    assert_eq!(bench.send(reading(0, 1, 'T', 2, 30, 7)), 0);
    let head = bench.state.heads[0];
    assert_eq!(
        (head.last_id, head.last_stable_id, head.boundary),
        (2, 1, 0)
    );
    assert_eq!(bench.send(undo(0, 1, 1)), 0);
    assert_eq!(bench.send(boundary(0, 1, 90)), 0);
    assert_eq!(bench.send(boundary(0, 1, 90)), 0);
    assert_eq!(bench.send(boundary(0, 1, 89)), 12);
    assert_eq!(bench.send(reading(0, 1, 'S', 2, 89, 7)), 12);
    assert_eq!(bench.send(reading(0, 1, 'S', 2, 90, 7)), 0);
    assert_eq!(bench.send(boundary(0, 1, 100)), 0);
    assert_eq!(bench.step(0)[0].count, 2);
    let head = bench.state.heads[0];
    assert_eq!((head.last_id, head.last_stable_id), (2, 2));
}

// Every accepted call sets the clock, no refused one does.
#[test]
fn clock() {
    let mut bench = Bench::open(SINGLE);
    let calls = [
        plain(1, 1, 'R'),
        undo(2, 1, 0),
        plain(3, 0, 'P'),
        boundary(4, 1, 0),
        reading(5, 1, 'S', 1, 10, 0),
        reading(6, 1, 'T', 2, 10, 0),
        undo(6, 1, 1),
    ];
    for call in calls {
        assert_eq!(bench.send(call), 0);
        assert_eq!(bench.state.clock, call.now);
    }
    assert_eq!(bench.send(plain(5, 0, 'P')), 7);
    assert_eq!(bench.send(plain(9, 1, 'P')), 8);
    assert_eq!(bench.state.clock, 6);
}

// No kind of call minds the state's word, and only steps change it.
#[test]
fn calls_in_every_word() {
    let calls = [
        boundary(60, 1, 5),
        plain(60, 1, 'R'),
        reading(60, 1, 'S', 2, 10, 0),
        reading(60, 1, 'T', 3, 10, 0),
        undo(60, 1, 2),
    ];
    let mut failing = Bench::open(SINGLE);
    assert_eq!(failing.send(reading(0, 1, 'S', 1, 10, 0)), 0);
    let mut correcting = failing.clone();
    assert_eq!(failing.step(50).len(), 1);
    correcting.state.word = Word::Correcting;
    for mut bench in [failing, correcting] {
        let word = bench.state.word;
        for call in calls {
            assert_eq!(bench.send(call), 0);
            assert_eq!(bench.state.word, word);
        }
    }
}

// Refusal 14 and the store's places.
#[test]
fn full_line() {
    let mut bench = Bench::open(USUAL);
    for id in 1..=256 {
        assert_eq!(bench.send(reading(0, 1, 'S', id, 100, 0)), 0);
    }
    assert_eq!(bench.send(reading(0, 1, 'S', 257, 100, 0)), 14);
    assert_eq!(bench.send(reading(0, 1, 'T', 257, 100, 0)), 14);
    assert_eq!(bench.send(reading(0, 2, 'S', 1, 100, 0)), 0);
    assert_eq!(bench.lent.store[255], placed('S', 256, 100, 0));
    assert_eq!(bench.lent.store[256], placed('S', 1, 100, 0));
    assert_eq!(bench.text(&spell(&plain(0, 1, 'R'))), (0, 0));
}
