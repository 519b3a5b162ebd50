//! Nasty journals: edges, limits, holds at the very tick, full lines and refusals.

use std::io::{self, Write};

use super::aim::{aimed_call, fitting_call, spoil_call};
use super::journal::Journal;
use super::malformed::spoil_text;
use super::random::Random;
use crate::node::SHARE;
use crate::playback::Mode;
use crate::text::{spell_call, write_settings, Call, Settings};
use crate::text::{BOUNDARY, STABLE, STEP, TENTATIVE, UNDO};

/// From so many lines on, holds are short, so that the clock does not reach its end early.
const LONG: u64 = 10_000;

/// Writes a nasty journal; a few seeds have settings outside the limits.
pub(super) fn write(mode: Mode, seed: u64, lines: u64, output: &mut dyn Write) -> io::Result<()> {
    let mut random = Random::new(seed ^ 0x6E61_7374_7900_0000);
    let far = random.once_in(16);
    let mut settings = settings(&mut random, far);
    if lines > LONG {
        settings.hold = settings.hold.min(999);
    }
    let late = random.once_in(8);
    let mut text = write_settings(&settings);
    if random.once_in(32) {
        text = spoil_text(&mut random, &text);
    }
    let Some(mut journal) = Journal::open(mode, &text, lines, random, output)? else {
        return Ok(());
    };
    if late {
        jump_clock(&mut journal)?;
    }
    if far {
        far_boundaries(&mut journal)?;
    }
    while !journal.is_full() {
        phase(&mut journal)?;
    }
    Ok(())
}

/// Settings at and between their limits, once in a while one past them.
pub(super) fn settings(random: &mut Random, far: bool) -> Settings {
    let length = random.between(100, 36_000) as u32;
    let hold = random.between(0, 864_000) as u32;
    let one = random.signed_word();
    let other = random.signed_word();
    let limits = [
        (-1_000, 1_000),
        (i32::MIN, i32::MAX),
        (0, 0),
        (one.min(other), one.max(other)),
    ];
    let (low, high) = random.pick(&limits);
    let mut settings = Settings {
        lines: random.pick(&[1, 1, 2, 2, 2, 3, 4, 8]),
        bucket: random.pick(&[100, 100, 100, 101, 128, 256, 600, length]),
        window: random.pick(&[1, 1, 1, 2, 3, 16]),
        hold: random.pick(&[0, 0, 1, 50, 50, 864_000, hold]),
        low,
        high,
        displays: random.pick(&[1, 1, 2, 3, 4]),
    };
    if far {
        settings.bucket = 36_000;
    }
    if random.once_in(48) {
        break_limit(random, &mut settings);
    }
    settings
}

fn break_limit(random: &mut Random, settings: &mut Settings) {
    match random.below(6) {
        0 => settings.lines = random.pick(&[0, 9, u32::MAX]),
        1 => settings.bucket = random.pick(&[0, 99, 36_001, u32::MAX]),
        2 => settings.window = random.pick(&[0, 17, u32::MAX]),
        3 => settings.hold = random.pick(&[864_001, u32::MAX]),
        4 => settings.displays = random.pick(&[0, 5, u32::MAX]),
        _ => (settings.low, settings.high) = (1, 0),
    }
}

/// Sets the clock near the end of its 32 bits, where some holds can never run out.
fn jump_clock(journal: &mut Journal) -> io::Result<()> {
    let hold = journal.state.settings.hold;
    let before = journal.random.pick(&[0, 1, 1_000, hold, 2 * hold]);
    let mut call = aim(journal, 0, STEP);
    call.now = u32::MAX - before;
    journal.put(&call).map(|_| ())
}

/// Takes every boundary close to the end of its 32 bits, so that many buckets are left to work.
fn far_boundaries(journal: &mut Journal) -> io::Result<()> {
    for line in 0..journal.state.lines().len() {
        let mut call = aim(journal, line, BOUNDARY);
        call.time = u32::MAX - journal.random.pick(&[0, 1, 36_000, 40_000]);
        journal.put(&call)?;
    }
    Ok(())
}

fn aim(journal: &mut Journal, line: usize, kind: u8) -> Call {
    aimed_call(
        &mut journal.random,
        &journal.state,
        &journal.lent.store,
        line,
        kind,
    )
}

/// One stretch of calls of a kind.
pub(super) fn phase(journal: &mut Journal) -> io::Result<()> {
    let count = journal.random.between(1, 40);
    match journal.random.below(40) {
        0 => fill(journal),
        1..=4 => steps(journal, count / 4 + 1),
        5..=8 => tentative_burst(journal),
        9..=20 => catch_up(journal),
        _ => mixed(journal, count),
    }
}

/// Fitting calls with spoilt ones among them.
fn mixed(journal: &mut Journal, count: i64) -> io::Result<()> {
    for _ in 0..count {
        let mut call = fitting_call(&mut journal.random, &journal.state, &journal.lent.store);
        let faults = journal.random.pick(&[0, 0, 0, 0, 0, 1, 1, 2, 3]);
        for _ in 0..faults {
            let Journal {
                random,
                state,
                lent,
                ..
            } = journal;
            spoil_call(random, state, &lent.store, &mut call);
        }
        if call.is_reading() && journal.rarely() {
            call.time = u32::MAX;
        }
        if journal.random.once_in(40) {
            let spoilt = spoil_text(&mut journal.random, &spell_call(&call));
            if !journal.leaps(&spoilt) || journal.rarely() {
                journal.put_text(&spoilt)?;
            }
        } else {
            journal.put(&call)?;
        }
    }
    Ok(())
}

pub(super) fn steps(journal: &mut Journal, count: i64) -> io::Result<()> {
    for _ in 0..count {
        let call = aim(journal, 0, STEP);
        journal.put(&call)?;
    }
    Ok(())
}

/// Fills a line's share and goes on past it.
fn fill(journal: &mut Journal) -> io::Result<()> {
    let line = journal.random.below(journal.state.lines().len() as u64) as usize;
    let turn = journal.random.below(SHARE as u64 * 2);
    let mut left = SHARE as u64 - u64::from(journal.state.heads[line].kept) + 3;
    while left > 0 && !journal.is_full() {
        let kind = if left > turn { STABLE } else { TENTATIVE };
        let mut call = aim(journal, line, kind);
        call.now = journal.state.clock;
        journal.put(&call)?;
        left -= 1;
    }
    Ok(())
}

/// Tentative readings of a line, perhaps some steps, and an undo of some or all of them.
fn tentative_burst(journal: &mut Journal) -> io::Result<()> {
    let line = journal.random.below(journal.state.lines().len() as u64) as usize;
    for _ in 0..journal.random.between(1, 6) {
        let call = aim(journal, line, TENTATIVE);
        journal.put(&call)?;
    }
    let count = journal.random.between(0, 3);
    steps(journal, count)?;
    let call = aim(journal, line, UNDO);
    journal.put(&call).map(|_| ())
}

/// Brings every line's boundary to about the same edge, then steps.
pub(super) fn catch_up(journal: &mut Journal) -> io::Result<()> {
    let length = u64::from(journal.state.settings.bucket);
    let ahead = u64::from(journal.state.c) + journal.random.between(1, 3) as u64;
    for line in 0..journal.state.lines().len() {
        if journal.state.heads[line].last_id != journal.state.heads[line].last_stable_id {
            let mut call = aim(journal, line, UNDO);
            call.id = journal.state.heads[line].last_stable_id;
            journal.put(&call)?;
        }
        let mut call = aim(journal, line, BOUNDARY);
        let short = journal.random.pick(&[0, 0, 0, 0, 0, 0, 0, 1]);
        let edge = (ahead * length - short).min(u64::from(u32::MAX)) as u32;
        call.time = edge.max(journal.state.heads[line].boundary);
        journal.put(&call)?;
    }
    let count = journal.random.between(1, 6);
    steps(journal, count)
}
