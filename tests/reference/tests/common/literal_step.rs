//! What the slow double does with an accepted call, over lists and sorted.

use std::cmp::Ordering;

use reference::node::{Meter, Reading, Word};
use reference::record::{encode, Record};
use reference::text::Call;

use super::literal::{kept, Outcome};
use super::literal_display::hold;

/// Makes a line keep these readings.
fn keep(outcome: &mut Outcome, line: usize, readings: &[Reading]) {
    let before = outcome.state.heads[line].kept as usize;
    let share = &mut outcome.lent.store[256 * line..256 * line + 256];
    for (place, slot) in share.iter_mut().enumerate() {
        if place < readings.len() {
            *slot = readings[place];
        } else if place < before {
            *slot = Reading::ZERO;
        }
    }
    outcome.state.heads[line].kept = readings.len() as u32;
}

/// What an accepted call does.
pub fn accept(outcome: &mut Outcome, call: &Call) {
    outcome.state.clock = call.now;
    if call.kind == b'P' {
        return step(outcome);
    }
    let line = usize::from(call.line) - 1;
    let mut readings = kept(&outcome.state, &outcome.lent.store, line);
    match call.kind {
        b'B' => outcome.state.heads[line].boundary = call.time,
        b'U' => {
            readings.retain(|reading| reading.id <= call.id);
            outcome.state.heads[line].last_id = call.id;
            keep(outcome, line, &readings);
        }
        b'S' | b'T' => {
            readings.push(Reading {
                kind: call.kind,
                id: call.id,
                time: call.time,
                meter: call.meter,
                value: call.value,
                arrival: call.now,
            });
            keep(outcome, line, &readings);
            let head = &mut outcome.state.heads[line];
            head.last_id = call.id;
            if call.kind == b'S' {
                head.last_stable_id = call.id;
            }
        }
        _ => {}
    }
}

fn step(outcome: &mut Outcome) {
    let state = &outcome.state;
    let readings = in_order(outcome);
    let length = i128::from(state.settings.bucket);
    let lines = state.settings.lines as usize;
    let least = state.heads[..lines].iter().map(|head| head.boundary).min();
    let stable = i128::from(least.unwrap()) >= (i128::from(state.c) + 1) * length;
    let due = |reading: &Reading| {
        let (time, arrival) = (i128::from(reading.time), i128::from(reading.arrival));
        let waited = arrival + i128::from(state.settings.hold) <= i128::from(state.clock);
        time >= i128::from(state.p) * length && waited
    };
    if stable && state.p > state.c {
        let id = state.checkpoint.newest as u32;
        put(outcome, &bare(b'U', id, 0));
        outcome.state.operator = outcome.state.checkpoint.clone();
        outcome.state.p = outcome.state.c;
        outcome.state.word = Word::Correcting;
    } else if stable {
        step_stable(outcome, &readings);
    } else if state.word == Word::Correcting {
        put(outcome, &bare(b'R', 0, 0));
        outcome.state.word = Word::Stable;
    } else if readings.iter().any(due) {
        let p = state.p;
        work(outcome, &readings, p, b'T');
        outcome.state.p += 1;
        outcome.state.word = Word::Failure;
    }
}

/// All kept readings, sorted by time, line and id.
fn in_order(outcome: &Outcome) -> Vec<Reading> {
    let mut all = Vec::new();
    for line in 0..outcome.state.settings.lines as usize {
        for reading in kept(&outcome.state, &outcome.lent.store, line) {
            all.push((reading.time, line, reading.id, reading));
        }
    }
    all.sort_by_key(|entry| (entry.0, entry.1, entry.2));
    all.into_iter().map(|entry| entry.3).collect()
}

fn step_stable(outcome: &mut Outcome, readings: &[Reading]) {
    let settings = outcome.state.settings;
    let c = outcome.state.c;
    work(outcome, readings, c, b'S');
    if (c + 1).is_multiple_of(settings.window) {
        let time = (c + 1) * settings.bucket;
        put(outcome, &bare(b'B', 0, time));
    }
    for line in 0..settings.lines as usize {
        let mut own = kept(&outcome.state, &outcome.lent.store, line);
        own.retain(|reading| reading.time / settings.bucket != c);
        keep(outcome, line, &own);
    }
    outcome.state.c = c + 1;
    outcome.state.p = c + 1;
    outcome.state.checkpoint = outcome.state.operator.clone();
    hold(outcome);
}

/// Adds a bucket's readings, already in order, and closes the window if it is due.
fn work(outcome: &mut Outcome, readings: &[Reading], bucket: u32, kind: u8) {
    let settings = outcome.state.settings;
    for reading in readings {
        let inside = settings.low <= reading.value && reading.value <= settings.high;
        if reading.time / settings.bucket == bucket && inside {
            let meter = &mut outcome.state.operator.meters[usize::from(reading.meter)];
            meter.count += 1;
            meter.sum += i64::from(reading.value);
            meter.last = reading.value;
        }
    }
    if !(bucket + 1).is_multiple_of(settings.window) {
        return;
    }
    for number in 0..64 {
        let meter = outcome.state.operator.meters[number];
        outcome.state.operator.meters[number] = Meter::default();
        if meter.count > 0 {
            outcome.state.operator.newest += 1;
            let record = Record {
                kind,
                meter: number as u8,
                id: outcome.state.operator.newest as u32,
                time: (bucket + 1 - settings.window) * settings.bucket,
                count: meter.count,
                sum: meter.sum,
                mean: nearest(meter.sum, meter.count),
                last: meter.last,
            };
            put(outcome, &record);
        }
    }
}

/// The nearest whole, found by looking at both whole neighbours; the even one if both are as near.
fn nearest(sum: i64, count: u32) -> i32 {
    let (sum, count) = (i128::from(sum), i128::from(count));
    let toward = sum / count;
    let away = toward + sum.signum();
    let distance = |whole: i128| (sum - whole * count).abs();
    (match distance(away).cmp(&distance(toward)) {
        Ordering::Less => away,
        Ordering::Equal if away % 2 == 0 => away,
        _ => toward,
    }) as i32
}

/// A record that is no result.
fn bare(kind: u8, id: u32, time: u32) -> Record {
    Record {
        kind,
        meter: 0,
        id,
        time,
        count: 0,
        sum: 0,
        mean: 0,
        last: 0,
    }
}

fn put(outcome: &mut Outcome, record: &Record) {
    let start = 32 * outcome.records;
    outcome.area[start..start + 32].copy_from_slice(&encode(record));
    outcome.records += 1;
}
