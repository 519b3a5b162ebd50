//! Filling journals: windows of many meters one after the other, until the send-back store is full.

use std::io::{self, Write};

use super::aim::aimed_call;
use super::journal::Journal;
use super::nasty::{phase, steps};
use super::random::Random;
use crate::node::{free_places, METERS};
use crate::playback::Mode;
use crate::text::{write_settings, Call, Settings, BOUNDARY, STABLE, STEP, UNDO};

/// Writes a filling journal.
pub(super) fn write(mode: Mode, seed: u64, lines: u64, output: &mut dyn Write) -> io::Result<()> {
    let mut random = Random::new(seed ^ 0x6669_6C6C_0000_0000);
    let settings = Settings {
        lines: random.pick(&[1, 1, 2, 3]),
        bucket: random.pick(&[100, 100, 600]),
        window: random.pick(&[1, 1, 1, 2, 3]),
        hold: random.pick(&[0, 50]),
        low: random.pick(&[i32::MIN, -1_000]),
        high: 1_000,
        displays: random.pick(&[1, 2, 3, 4]),
    };
    let text = write_settings(&settings);
    let Some(mut journal) = Journal::open(mode, &text, lines, random, output)? else {
        return Ok(());
    };
    while !journal.is_full() {
        if journal.random.once_in(12) {
            phase(&mut journal)?;
        }
        window(&mut journal)?;
    }
    Ok(())
}

/// One window with a reading of each of many meters, perhaps of none, and the steps that work it.
fn window(journal: &mut Journal) -> io::Result<()> {
    let settings = journal.state.settings;
    let ends = journal.state.lines().iter().map(|head| head.boundary);
    let first = ends.max().unwrap_or(0) / settings.bucket;
    let count = meters(journal);
    let nearly_full = free_places(&journal.state) < METERS;
    let odd = journal.random.once_in(if nearly_full { 2 } else { 6 });
    for meter in 0..count {
        read(journal, first, meter as u8, odd)?;
    }
    if journal.random.once_in(4) {
        let mut call = aim(journal, 0, STEP);
        call.now = journal.state.clock.saturating_add(settings.hold);
        journal.put(&call)?;
    }
    let after = u64::from(first - first % settings.window + settings.window);
    let end = (after * u64::from(settings.bucket)).min(u64::from(u32::MAX)) as u32;
    for line in 0..settings.lines as usize {
        if journal.state.heads[line].last_id != journal.state.heads[line].last_stable_id {
            let mut call = aim(journal, line, UNDO);
            call.id = journal.state.heads[line].last_stable_id;
            journal.put(&call)?;
        }
        let mut call = aim(journal, line, BOUNDARY);
        call.time = end.max(journal.state.heads[line].boundary);
        journal.put(&call)?;
    }
    let more = journal.random.pick(&[0, 0, 1, 3]);
    steps(journal, i64::from(settings.window) + more)
}

/// The meters of the next window: often all, none now and then, and where fewer places are free, as
/// many as these or one more.
fn meters(journal: &mut Journal) -> u64 {
    let (most, free) = (METERS as u64, free_places(&journal.state) as u64);
    let few = journal.random.below(most);
    if free < most && journal.random.once_in(2) {
        return journal.random.pick(&[free, free, free + 1]);
    }
    journal.random.pick(&[most, most, most, few, 0])
}

/// A stable reading of a meter in a bucket, on some line; with `odd`, its value may be outside low to
/// high.
fn read(journal: &mut Journal, bucket: u32, meter: u8, odd: bool) -> io::Result<()> {
    let settings = journal.state.settings;
    let line = journal.random.below(u64::from(settings.lines)) as usize;
    let inside = journal.random.below(u64::from(settings.bucket)) as u32;
    let mut call = aim(journal, line, STABLE);
    let boundary = journal.state.heads[line].boundary;
    call.time = (bucket * settings.bucket)
        .saturating_add(inside)
        .max(boundary);
    call.meter = meter;
    if !odd {
        call.value = journal.random.between(-1_000, 1_000) as i32;
    }
    journal.put(&call).map(|_| ())
}

/// A call of one kind that fits the line, at the clock.
fn aim(journal: &mut Journal, line: usize, kind: u8) -> Call {
    let Journal {
        random,
        state,
        lent,
        ..
    } = journal;
    let mut call = aimed_call(random, state, &lent.store, line, kind);
    call.now = state.clock;
    call
}
