//! One step (document 01, section 'One step'): which rule applies, and the doing of it.

use std::ops::Range;

use super::operator::{Operator, METERS};
use super::sent::hold;
use super::state::{State, Word};
use super::store::{close_up, kept, Reading};
use super::Lent;
use crate::record::{encode, Record, RECORD_BYTES};
use crate::text::{Settings, STABLE, TENTATIVE};

/// The rules of a step, in the order in which they are tried.
#[derive(Clone, Copy, Debug, PartialEq, Eq)]
pub enum Rule {
    Withdraw,
    WorkStable,
    CloseCorrection,
    WorkTentative,
    Idle,
}

/// The bucket of a reading time.
pub fn bucket_of(time: u32, length: u32) -> u32 {
    time / length
}

/// The times of a bucket, its end left out, as numbers without width.
fn times_of(bucket: u32, length: u32) -> Range<u64> {
    let start = u64::from(bucket) * u64::from(length);
    start..start + u64::from(length)
}

/// Whether all lines have finished a bucket, so that no reading can join it any more.
pub fn is_stable(state: &State, bucket: u32) -> bool {
    let end = times_of(bucket, state.settings.bucket).end;
    state
        .lines()
        .iter()
        .all(|head| u64::from(head.boundary) >= end)
}

/// The first rule that applies at the state's clock, in a state and store in shape.
pub fn rule(state: &State, store: &[Reading]) -> Rule {
    let stable = is_stable(state, state.c);
    if stable && state.p > state.c {
        Rule::Withdraw
    } else if stable {
        Rule::WorkStable
    } else if state.word == Word::Correcting {
        Rule::CloseCorrection
    } else if is_due(state, store) {
        Rule::WorkTentative
    } else {
        Rule::Idle
    }
}

/// How many stable results a step would give by rule 2, from the operator as it stands; none where
/// another rule applies or no window closes.
pub fn results_ahead(state: &State, store: &[Reading]) -> usize {
    let worked = state.c;
    if state.p > worked || !is_stable(state, worked) || !closes_window(&state.settings, worked) {
        return 0;
    }
    let times = times_of(worked, state.settings.bucket);
    let mut counts = state.operator.meters.map(|meter| meter.count > 0);
    for line in 0..state.lines().len() {
        for reading in kept(state, store, line) {
            if times.contains(&u64::from(reading.time)) && is_inside(&state.settings, reading) {
                counts[usize::from(reading.meter)] = true;
            }
        }
    }
    counts.iter().filter(|&&counts| counts).count()
}

/// Does a step and gives the number of records laid down.
pub(super) fn step(state: &mut State, lent: &mut Lent, area: &mut [u8]) -> usize {
    let mut output = Output { area, records: 0 };
    let Lent { store, sent } = lent;
    match rule(state, store) {
        Rule::Withdraw => withdraw(state, &mut output),
        Rule::WorkStable => work_stable(state, store, sent, &mut output),
        Rule::CloseCorrection => {
            output.put(&Record::done());
            state.word = Word::Stable;
        }
        Rule::WorkTentative => work_tentative(state, store, &mut output),
        Rule::Idle => {}
    }
    output.records
}

/// The part of the area that a call has filled so far.
struct Output<'a> {
    area: &'a mut [u8],
    records: usize,
}

impl Output<'_> {
    fn put(&mut self, record: &Record) {
        let start = self.records * RECORD_BYTES;
        self.area[start..start + RECORD_BYTES].copy_from_slice(&encode(record));
        self.records += 1;
    }
}

/// Whether some kept reading, not earlier than bucket p, has waited as long as the hold.
fn is_due(state: &State, store: &[Reading]) -> bool {
    let start = times_of(state.p, state.settings.bucket).start;
    let (Ok(start), Some(latest)) = (
        u32::try_from(start),
        state.clock.checked_sub(state.settings.hold),
    ) else {
        return false;
    };
    let due = |reading: &Reading| reading.time >= start && reading.arrival <= latest;
    (0..state.lines().len()).any(|line| kept(state, store, line).iter().any(due))
}

fn withdraw(state: &mut State, output: &mut Output) {
    let id = u32::try_from(state.checkpoint.newest).expect("result ids in shape fit 32 bits");
    output.put(&Record::undo(id));
    state.operator = state.checkpoint.clone();
    state.p = state.c;
    state.word = Word::Correcting;
}

/// Works bucket c; stable results also go to their places in the send-back store.
fn work_stable(state: &mut State, store: &mut [Reading], sent: &mut [u8], output: &mut Output) {
    let (worked, length) = (state.c, state.settings.bucket);
    work(state, store, worked);
    if closes_window(&state.settings, worked) {
        close_window(state, worked, STABLE, |result| {
            output.put(result);
            hold(sent, result);
        });
        output.put(&Record::boundary((worked + 1) * length));
    }
    let times = times_of(worked, length);
    for line in 0..state.lines().len() {
        close_up(state, store, line, |reading| {
            times.contains(&u64::from(reading.time))
        });
    }
    state.c += 1;
    state.p = state.c;
    state.checkpoint = state.operator.clone();
}

fn work_tentative(state: &mut State, store: &[Reading], output: &mut Output) {
    let worked = state.p;
    work(state, store, worked);
    if closes_window(&state.settings, worked) {
        close_window(state, worked, TENTATIVE, |result| output.put(result));
    }
    state.p += 1;
    state.word = Word::Failure;
}

fn closes_window(settings: &Settings, bucket: u32) -> bool {
    (bucket + 1).is_multiple_of(settings.window)
}

fn close_window(state: &mut State, bucket: u32, kind: u8, put: impl FnMut(&Record)) {
    let time = (bucket + 1 - state.settings.window) * state.settings.bucket;
    state.operator.close(kind, time, put);
}

/// Adds a bucket's kept readings to the operator in one pass over the lines in order. A later
/// place of a line and a later line come later in the bucket's order wherever the times are
/// equal, so the last value of a meter is that of the latest place with its newest time.
fn work(state: &mut State, store: &[Reading], bucket: u32) {
    let settings = state.settings;
    let times = times_of(bucket, settings.bucket);
    let mut newest = [0; METERS];
    for line in 0..settings.lines as usize {
        for reading in kept(state, store, line) {
            if times.contains(&u64::from(reading.time)) {
                add(&mut state.operator, &settings, reading, &mut newest);
            }
        }
    }
}

fn is_inside(settings: &Settings, reading: &Reading) -> bool {
    settings.low <= reading.value && reading.value <= settings.high
}

/// Adds one reading, unless its value is outside the limits.
fn add(
    operator: &mut Operator,
    settings: &Settings,
    reading: &Reading,
    newest: &mut [u32; METERS],
) {
    if !is_inside(settings, reading) {
        return;
    }
    let number = usize::from(reading.meter);
    let meter = &mut operator.meters[number];
    meter.count += 1;
    meter.sum += i64::from(reading.value);
    if reading.time >= newest[number] {
        newest[number] = reading.time;
        meter.last = reading.value;
    }
}
