//! Journals to measure a merge box with: each keeps it at one kind of work. They are for `replay`, in
//! which displays acknowledge all results, since most have more than the send-back store holds.

use std::io::{self, Write};

use super::aim::{fitting_call, spoil_call};
use super::journal::Journal;
use super::malformed::spoil_text;
use super::random::Random;
use super::{write_input, Kind};
use crate::node::{METERS, SHARE};
use crate::playback::Mode;
use crate::text::{spell_call, write_settings, Call, Settings};
use crate::text::{BOUNDARY, STABLE, STEP};

/// The longest text among the malformed ones, so that the cost of a line is not that of its length.
const LONGEST_TEXT: usize = 200;

/// What a journal keeps the box at.
#[derive(Clone, Copy, Debug, PartialEq, Eq)]
pub enum Workload {
    /// A realistic day with outages.
    Day,
    /// Close to 8 × 256 kept readings all the time, a few of them in each bucket.
    FullStore,
    /// Short buckets of 64 meters, each the end of a window: nearly a record for each line.
    ManyRecords,
    /// The same readings with windows of 16 buckets, so that every meter is in use at nearly every call.
    LongWindows,
    /// Malformed and refused lines, and some accepted ones among them.
    Refused,
    /// A line away for long, then back: 2,048 readings worked in one bucket, steps between them.
    CatchUp,
}

/// The workloads with their names on the command line.
pub const WORKLOADS: [(&str, Workload); 6] = [
    ("day", Workload::Day),
    ("full-store", Workload::FullStore),
    ("many-records", Workload::ManyRecords),
    ("long-windows", Workload::LongWindows),
    ("refused", Workload::Refused),
    ("catch-up", Workload::CatchUp),
];

/// Writes a workload's settings line and about so many journal lines.
pub fn write_workload(
    workload: Workload,
    seed: u64,
    lines: u64,
    output: &mut dyn Write,
) -> io::Result<()> {
    match workload {
        Workload::Day => write_input(Mode::Replay, Kind::Day, seed, lines, output),
        Workload::FullStore => {
            let site = Site::open(settings(8, 100, 30_000), seed, lines, output)?;
            site.full_store()
        }
        Workload::ManyRecords => {
            let site = Site::open(settings(2, 100, 50), seed, lines, output)?;
            site.many_records()
        }
        Workload::LongWindows => {
            let settings = Settings {
                window: 16,
                ..settings(2, 100, 50)
            };
            let site = Site::open(settings, seed, lines, output)?;
            site.many_records()
        }
        Workload::Refused => {
            let site = Site::open(settings(3, 100, 50), seed, lines, output)?;
            site.refused()
        }
        Workload::CatchUp => {
            let site = Site::open(settings(8, 36_000, 600), seed, lines, output)?;
            site.catch_up()
        }
    }
}

/// Writes a journal that fills the shares of eight lines evenly, then repeats a call that changes
/// nothing: an R on line 1, or a step at which some readings could be due, but none is.
pub fn write_still(kind: u8, kept: u64, calls: u64, output: &mut dyn Write) -> io::Result<()> {
    let settings = settings(8, 100, 50);
    let mut site = Site::open(settings, 0, kept + calls, output)?;
    site.now = 2 * settings.hold;
    for place in 0..kept {
        site.read((place % 8) as u8 + 1, 0)?;
    }
    let line = u8::from(kind != STEP);
    while !site.journal.is_full() {
        site.put(line, kind, 0)?;
    }
    Ok(())
}

fn settings(lines: u32, bucket: u32, hold: u32) -> Settings {
    Settings {
        lines,
        bucket,
        window: 1,
        hold,
        low: -1_000,
        high: 1_000,
        displays: 1,
    }
}

/// A journal with the tick at which its next call is made.
struct Site<'a> {
    journal: Journal<'a>,
    settings: Settings,
    now: u32,
}

impl<'a> Site<'a> {
    fn open(
        settings: Settings,
        seed: u64,
        lines: u64,
        output: &'a mut dyn Write,
    ) -> io::Result<Self> {
        let text = write_settings(&settings);
        let journal = Journal::open(Mode::Replay, &text, lines, Random::new(seed), output)?;
        Ok(Site {
            journal: journal.expect("settings within their limits"),
            settings,
            now: 0,
        })
    }

    /// Puts a call that has no other field than its time.
    fn put(&mut self, line: u8, kind: u8, time: u32) -> io::Result<()> {
        let call = Call {
            now: self.now,
            line,
            kind,
            id: 0,
            time,
            meter: 0,
            value: 0,
        };
        self.journal.put(&call).map(|_| ())
    }

    fn step(&mut self) -> io::Result<()> {
        self.put(0, STEP, 0)
    }

    /// Puts the next stable reading of a line, of any meter and any value that counts.
    fn read(&mut self, line: u8, time: u32) -> io::Result<()> {
        let meter = self.journal.random.below(METERS as u64) as u8;
        self.read_meter(line, time, meter)
    }

    fn read_meter(&mut self, line: u8, time: u32, meter: u8) -> io::Result<()> {
        let last = self.journal.state.heads[usize::from(line) - 1].last_id;
        let call = Call {
            now: self.now,
            line,
            kind: STABLE,
            id: last + 1,
            time,
            meter,
            value: self.journal.random.between(-1_000, 1_000) as i32,
        };
        self.journal.put(&call).map(|_| ())
    }

    /// Puts the boundary of every line.
    fn bound(&mut self, time: u32) -> io::Result<()> {
        (1..=self.settings.lines as u8).try_for_each(|line| self.put(line, BOUNDARY, time))
    }

    /// A time in a bucket.
    fn time_in(&mut self, bucket: u32) -> u32 {
        let length = self.settings.bucket;
        bucket * length + self.journal.random.below(u64::from(length)) as u32
    }

    /// One reading of each line in each bucket, read so far ahead that every share is full.
    fn full_store(mut self) -> io::Result<()> {
        let mut bucket = 0;
        while !self.journal.is_full() {
            self.now = bucket * self.settings.bucket;
            for line in 1..=8 {
                let time = self.time_in(bucket);
                self.read(line, time)?;
            }
            bucket += 1;
            if bucket >= SHARE as u32 {
                let worked = bucket - SHARE as u32;
                self.bound((worked + 1) * self.settings.bucket)?;
                self.step()?;
                self.step()?;
            }
        }
        Ok(())
    }

    /// Every meter once in each bucket, half of them on each line.
    fn many_records(mut self) -> io::Result<()> {
        let mut bucket = 0;
        while !self.journal.is_full() {
            self.now = bucket * self.settings.bucket;
            for meter in 0..METERS as u8 {
                let time = self.time_in(bucket);
                self.read_meter(meter % 2 + 1, time, meter)?;
            }
            bucket += 1;
            self.bound(bucket * self.settings.bucket)?;
            self.step()?;
        }
        Ok(())
    }

    /// Of eight lines two that fit, three spoilt in a field and three spoilt in their text.
    fn refused(mut self) -> io::Result<()> {
        while !self.journal.is_full() {
            let Journal {
                random,
                state,
                lent,
                ..
            } = &mut self.journal;
            let mut call = fitting_call(random, state, &lent.store);
            let fault = random.below(8);
            if (2..5).contains(&fault) {
                spoil_call(random, state, &lent.store, &mut call);
            }
            let mut text = spell_call(&call);
            if fault >= 5 {
                text = spoil_text(random, &text);
            }
            if text.len() <= LONGEST_TEXT && !self.journal.leaps(&text) {
                self.journal.put_text(&text)?;
            }
        }
        Ok(())
    }

    /// Seven lines fill their shares in one bucket while the eighth is away, and provisional
    /// results are given; then it sends all at once, and they are withdrawn and given anew.
    fn catch_up(mut self) -> io::Result<()> {
        let mut bucket = 0;
        while !self.journal.is_full() {
            self.now = bucket * self.settings.bucket;
            for place in 0..7 * SHARE {
                let time = self.time_in(bucket);
                self.read((place % 7) as u8 + 1, time)?;
                if place % 4 == 3 {
                    self.now += 4;
                    self.step()?;
                }
            }
            for _ in 0..SHARE {
                let time = self.time_in(bucket);
                self.read(8, time)?;
            }
            bucket += 1;
            self.bound(bucket * self.settings.bucket)?;
            for _ in 0..4 {
                self.step()?;
            }
        }
        Ok(())
    }
}
