//! Realistic days: lines that send readings and boundaries, fall silent, and return.

use std::collections::VecDeque;
use std::io::{self, Write};

use super::journal::Journal;
use super::random::Random;
use crate::playback::Mode;
use crate::text::{write_settings, Call, Settings, BOUNDARY, DONE, STABLE, STEP, TENTATIVE, UNDO};

/// The most readings that a sender keeps back.
const BACKLOG: usize = 400;
/// Ticks by which a boundary lags behind the clock; readings lag by less.
const LAG: u32 = 10;

/// What a sender reads from a meter.
struct Measured {
    time: u32,
    meter: u8,
    value: i32,
}

/// The far end of one line.
struct Sender {
    backlog: VecDeque<Measured>,
    silent_until: u32,
    tentative: bool,
    owes_undo: bool,
    owes_done: bool,
    boundary_due: u32,
}

/// Writes a day's journal.
pub(super) fn write(mode: Mode, seed: u64, lines: u64, output: &mut dyn Write) -> io::Result<()> {
    let mut random = Random::new(seed ^ 0x6461_7900_0000_0000);
    let length = random.pick(&[100, 300, 600, 600, 1_200]);
    let settings = Settings {
        lines: random.between(2, 8) as u32,
        bucket: length,
        window: random.pick(&[1, 1, 1, 5, 10]),
        hold: random.pick(&[50, length, 2 * length, 2 * length, 3 * length]),
        low: -1_000,
        high: 100_000,
        displays: random.pick(&[1, 1, 2, 4]),
    };
    let text = write_settings(&settings);
    let Some(mut journal) = Journal::open(mode, &text, lines, random, output)? else {
        return Ok(());
    };
    let mut senders: Vec<Sender> = (0..settings.lines).map(|_| Sender::new()).collect();
    let mut now: u32 = 0;
    while !journal.is_full() {
        now = now.saturating_add(journal.random.between(1, 4) as u32);
        for (line, sender) in senders.iter_mut().enumerate() {
            sender.measure(&mut journal.random, now, settings.bucket);
            sender.send(&mut journal, line as u8 + 1, now)?;
        }
        if journal.random.once_in(3) {
            journal.put(&plain(now, 0, STEP))?;
        }
    }
    Ok(())
}

/// A call with all but the first three fields 0.
fn plain(now: u32, line: u8, kind: u8) -> Call {
    Call {
        now,
        line,
        kind,
        id: 0,
        time: 0,
        meter: 0,
        value: 0,
    }
}

impl Sender {
    fn new() -> Self {
        Sender {
            backlog: VecDeque::new(),
            silent_until: 0,
            tentative: false,
            owes_undo: false,
            owes_done: false,
            boundary_due: 0,
        }
    }

    /// Reads a meter now and then; once in a long while the line goes silent or tentative.
    fn measure(&mut self, random: &mut Random, now: u32, length: u32) {
        if now >= self.silent_until && random.once_in(10 * u64::from(length)) {
            let buckets = random.pick(&[1, 1, 2, 3, 6]);
            self.silent_until = now.saturating_add(buckets * length);
            self.tentative = random.once_in(3);
            (self.owes_undo, self.owes_done) = (true, true);
        }
        if self.backlog.len() < BACKLOG && random.once_in(5) {
            let wild = random.once_in(300);
            let value = random.between(0, if wild { 2_000_000 } else { 900 });
            self.backlog.push_back(Measured {
                time: now.saturating_sub(random.below(u64::from(LAG)) as u32),
                meter: random.below(24) as u8,
                value: value as i32,
            });
        }
    }

    /// Sends what the line can send at this tick.
    fn send(&mut self, journal: &mut Journal, line: u8, now: u32) -> io::Result<()> {
        if now < self.silent_until {
            return match self.backlog.back() {
                Some(measured) if self.tentative && journal.random.once_in(4) => {
                    let call = reading(journal, measured, now, line, TENTATIVE);
                    journal.put(&call).map(|_| ())
                }
                _ => Ok(()),
            };
        }
        if std::mem::take(&mut self.owes_undo) {
            let mut call = plain(now, line, UNDO);
            call.id = journal.state.heads[usize::from(line) - 1].last_stable_id;
            journal.put(&call)?;
        }
        while let Some(measured) = self.backlog.front() {
            let call = reading(journal, measured, now, line, STABLE);
            if journal.put(&call)? != 0 || journal.is_full() {
                break;
            }
            self.backlog.pop_front();
        }
        self.send_boundary(journal, line, now)
    }

    /// Sends a boundary if one is due, and after a silence that the corrections are done.
    fn send_boundary(&mut self, journal: &mut Journal, line: u8, now: u32) -> io::Result<()> {
        if now >= self.boundary_due || self.owes_done {
            let oldest = self.backlog.iter().map(|measured| measured.time).min();
            let mut call = plain(now, line, BOUNDARY);
            call.time = oldest.unwrap_or(u32::MAX).min(now.saturating_sub(LAG));
            journal.put(&call)?;
            let pause = journal.state.settings.bucket / 4;
            self.boundary_due = now.saturating_add(pause);
        }
        if self.backlog.is_empty() && std::mem::take(&mut self.owes_done) {
            journal.put(&plain(now, line, DONE))?;
        }
        Ok(())
    }
}

/// The call that hands a reading over, with the next id of its line.
fn reading(journal: &Journal, measured: &Measured, now: u32, line: u8, kind: u8) -> Call {
    let last = journal.state.heads[usize::from(line) - 1].last_id;
    Call {
        id: last.saturating_add(1),
        time: measured.time,
        meter: measured.meter,
        value: measured.value,
        ..plain(now, line, kind)
    }
}
