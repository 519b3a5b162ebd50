//! Any calls, calls aimed at a state, and faults aimed at one refusal each.

use super::random::Random;
use crate::node::{Head, Reading, State, LINES, METERS, SHARE};
use crate::text::{Call, BOUNDARY, DONE, STABLE, STEP, TENTATIVE, UNDO};

/// A call with every field anywhere in its range, often at one of its ends.
pub fn any_call(random: &mut Random) -> Call {
    Call {
        now: random.word(),
        line: random.word() as u8,
        kind: random.pick(b"STBURP"),
        id: random.word(),
        time: random.word(),
        meter: random.word() as u8,
        value: random.signed_word(),
    }
}

/// The lines that a state really has heads for, whatever its settings say.
fn line_count(state: &State) -> u64 {
    u64::from(state.settings.lines).clamp(1, LINES as u64)
}

/// The kept readings of a line counted from 0, as far as they are there.
fn kept<'a>(state: &State, store: &'a [Reading], line: usize) -> &'a [Reading] {
    let start = (line * SHARE).min(store.len());
    let places = (state.heads[line].kept as usize).min(SHARE);
    &store[start..(start + places).min(store.len())]
}

/// A call that most often no refusal fits, at edges of buckets and holds.
pub fn fitting_call(random: &mut Random, state: &State, store: &[Reading]) -> Call {
    let line = random.below(line_count(state)) as usize;
    let tentative = kept(state, store, line)
        .iter()
        .any(|reading| reading.kind == TENTATIVE);
    let kind = if tentative {
        random.pick(&[STEP, STEP, STEP, TENTATIVE, TENTATIVE, UNDO])
    } else {
        random.pick(&[
            STEP, STEP, STEP, STEP, STABLE, STABLE, STABLE, STABLE, BOUNDARY, BOUNDARY, TENTATIVE,
            UNDO, DONE,
        ])
    };
    aimed_call(random, state, store, line, kind)
}

/// A call of one kind that most often fits the line, counted from 0.
pub(super) fn aimed_call(
    random: &mut Random,
    state: &State,
    store: &[Reading],
    line: usize,
    kind: u8,
) -> Call {
    let head = state.heads[line];
    let mut call = Call {
        now: aimed_now(random, state, store),
        line: line as u8 + 1,
        kind,
        id: 0,
        time: 0,
        meter: 0,
        value: 0,
    };
    match kind {
        STABLE | TENTATIVE => {
            call.id = head.last_id.wrapping_add(1);
            call.time = aimed_time(random, state, &head);
            call.meter = aimed_meter(random);
            call.value = aimed_value(random, state);
        }
        BOUNDARY => call.time = aimed_time(random, state, &head),
        UNDO => call.id = aimed_undo(random, &head),
        STEP => call.line = 0,
        _ => {}
    }
    call
}

/// The clock or a little later, often the very tick of a hold or one beside it.
fn aimed_now(random: &mut Random, state: &State, store: &[Reading]) -> u32 {
    let readings = kept(state, store, random.below(line_count(state)) as usize);
    if random.once_in(3) && !readings.is_empty() {
        let arrival = random.pick(readings).arrival;
        let tick = i64::from(arrival) + i64::from(state.settings.hold) + random.between(-1, 1);
        if (i64::from(state.clock)..=i64::from(u32::MAX)).contains(&tick) {
            return tick as u32;
        }
    }
    let later = random.pick(&[0, 0, 0, 1, 1, 7, 40]);
    state.clock.saturating_add(later)
}

/// A time at or near an edge of a bucket that matters, not below the boundary.
fn aimed_time(random: &mut Random, state: &State, head: &Head) -> u32 {
    let length = u64::from(state.settings.bucket.max(1));
    let own = u64::from(head.boundary) / length;
    let (c, p) = (u64::from(state.c), u64::from(state.p));
    let bucket = random.pick(&[c, c, c, c + 1, p, p + 1, own, own, own + 1]);
    let inside = match random.below(8) {
        0 | 1 => 0,
        2 => 1,
        3 | 4 => length - 1,
        5 => length,
        _ => random.below(length),
    };
    let time = (bucket * length + inside).min(u64::from(u32::MAX)) as u32;
    time.max(head.boundary)
}

fn aimed_meter(random: &mut Random) -> u8 {
    match random.below(8) {
        0 => METERS as u8 - 1,
        1 => random.below(METERS as u64) as u8,
        _ => random.below(4) as u8,
    }
}

/// A value often at a limit or one past it.
fn aimed_value(random: &mut Random, state: &State) -> i32 {
    let (low, high) = (state.settings.low, state.settings.high);
    match random.below(8) {
        0 => low,
        1 => high,
        2 => low.saturating_sub(1),
        3 => high.saturating_add(1),
        4 => random.signed_word(),
        5 => random.between(-3, 3) as i32,
        _ => random.between(i64::from(low.min(high)), i64::from(high.max(low))) as i32,
    }
}

fn aimed_undo(random: &mut Random, head: &Head) -> u32 {
    let (least, greatest) = (head.last_stable_id, head.last_id);
    match random.below(4) {
        0 => greatest,
        1 if least <= greatest => random.between(i64::from(least), i64::from(greatest)) as u32,
        _ => least,
    }
}

/// Gives a call one more fault, aimed at one of refusals 7 to 14.
pub fn spoil_call(random: &mut Random, state: &State, store: &[Reading], call: &mut Call) {
    let line = usize::from(call.line).clamp(1, LINES) - 1;
    let head = state.heads[line];
    let any = random.bits();
    match random.below(8) {
        0 => call.now = state.clock.saturating_sub(1 + random.below(2) as u32),
        1 => {
            let above = state.settings.lines.wrapping_add(1) as u8;
            call.line = random.pick(&[0, above, 255, any as u8]);
        }
        2 => spoil_unused(random, call),
        3 => call.meter = random.pick(&[64, 255, 64 + (any % 192) as u8]),
        4 => call.id = spoilt_id(random, &head, call.id),
        5 => call.time = head.boundary.saturating_sub(1),
        6 => spoil_tentative(random, state, store, call),
        _ => {
            let fullest = (0..line_count(state) as usize).max_by_key(|&at| state.heads[at].kept);
            let kind = random.pick(&[STABLE, TENTATIVE]);
            *call = aimed_call(random, state, store, fullest.unwrap_or(0), kind);
        }
    }
}

/// Sets a field that the kind does not use, or makes the kind one that does not use it.
fn spoil_unused(random: &mut Random, call: &mut Call) {
    if call.is_reading() {
        call.kind = random.pick(&[BOUNDARY, UNDO, DONE, STEP]);
        return;
    }
    match random.below(4) {
        0 => call.id = 1,
        1 if call.kind != BOUNDARY => call.time = random.word(),
        2 => call.meter = random.pick(&[1, 63, 64, 255]),
        _ => call.value = random.pick(&[1, -1, i32::MIN, i32::MAX]),
    }
}

fn spoilt_id(random: &mut Random, head: &Head, id: u32) -> u32 {
    let off = random.pick(&[id.wrapping_sub(1), id.wrapping_add(1), 0, u32::MAX]);
    let (below, above) = (
        head.last_stable_id.wrapping_sub(1),
        head.last_id.wrapping_add(1),
    );
    let any = random.bits() as u32;
    random.pick(&[off, off, below, above, any])
}

/// Makes it a stable reading, a boundary or an R of a line that keeps a tentative one.
fn spoil_tentative(random: &mut Random, state: &State, store: &[Reading], call: &mut Call) {
    let kind = random.pick(&[STABLE, BOUNDARY, DONE]);
    for line in 0..line_count(state) as usize {
        let readings = kept(state, store, line);
        if readings.iter().any(|reading| reading.kind == TENTATIVE) {
            *call = aimed_call(random, state, store, line, kind);
        }
    }
}
