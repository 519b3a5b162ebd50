//! Crowded journals: seven or eight lines full of readings of every meter, in long windows too.

use std::io::{self, Write};

use super::aim::aimed_call;
use super::journal::Journal;
use super::nasty::{catch_up, steps};
use super::random::Random;
use crate::node::{METERS, SHARE};
use crate::playback::Mode;
use crate::text::{write_settings, Settings, STABLE, STEP, TENTATIVE};

/// Writes a crowded journal.
pub(super) fn write(mode: Mode, seed: u64, lines: u64, output: &mut dyn Write) -> io::Result<()> {
    let mut random = Random::new(seed ^ 0x6372_6F77_6400_0000);
    let settings = Settings {
        lines: random.pick(&[7, 8, 8, 8]),
        bucket: random.pick(&[100, 101, 36_000]),
        window: random.pick(&[1, 1, 2, 15, 16]),
        hold: random.pick(&[0, 50, 5_000]),
        low: random.pick(&[i32::MIN, -1_000_000, 0]),
        high: random.pick(&[i32::MAX, 1_000_000]),
        displays: random.pick(&[1, 2, 4]),
    };
    let text = write_settings(&settings);
    let Some(mut journal) = Journal::open(mode, &text, lines, random, output)? else {
        return Ok(());
    };
    while !journal.is_full() {
        for line in 0..journal.state.lines().len() {
            crowd(&mut journal, line)?;
        }
        if journal.random.once_in(2) {
            wait(&mut journal)?;
        }
        for _ in 0..journal.random.between(1, 20) {
            catch_up(&mut journal)?;
        }
    }
    Ok(())
}

/// Sends a line's readings, often more than it has places for, meter after meter.
fn crowd(journal: &mut Journal, line: usize) -> io::Result<()> {
    let few = journal.random.below(64);
    let count = journal.random.pick(&[few, few, 64, SHARE as u64 + 2]);
    let kind = journal.random.pick(&[STABLE, STABLE, STABLE, TENTATIVE]);
    for number in 0..count {
        let Journal {
            random,
            state,
            lent,
            ..
        } = journal;
        let mut call = aimed_call(random, state, &lent.store, line, kind);
        call.meter = (number % METERS as u64) as u8;
        journal.put(&call)?;
    }
    Ok(())
}

/// Steps once the hold has run out, so that buckets are worked before they are stable.
fn wait(journal: &mut Journal) -> io::Result<()> {
    let Journal {
        random,
        state,
        lent,
        ..
    } = journal;
    let mut call = aimed_call(random, state, &lent.store, 0, STEP);
    call.now = state.clock.saturating_add(state.settings.hold);
    journal.put(&call)?;
    let count = journal.random.between(0, 20);
    steps(journal, count)
}
