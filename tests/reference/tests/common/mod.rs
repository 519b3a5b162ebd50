//! A bench for small tests: a node, its store and an area, and short ways to call it.
#![allow(dead_code)]

pub mod balance;
pub mod literal;
mod literal_display;
mod literal_step;
pub mod replica;

use reference::node::{call, make, open, Input, Lent, Meter, Reading, State, SHARE};
use reference::record::{decode, Record, AREA_BYTES, RECORD_BYTES};
use reference::text::{write_call, Call, DisplayCall, Wish, JOURNAL_LONGEST};

/// The settings of document 01's example.
pub const USUAL: &str = "lines=2 bucket=100 window=1 hold=50 low=-1000 high=1000 displays=1\n";
/// The same with one line.
pub const SINGLE: &str = "lines=1 bucket=100 window=1 hold=50 low=-1000 high=1000 displays=1\n";

/// The same with two displays.
pub const TWO_DISPLAYS: &str =
    "lines=1 bucket=100 window=1 hold=50 low=-1000 high=1000 displays=2\n";

/// A byte that no call writes by chance.
pub const UNTOUCHED: u8 = 0xA5;

/// What a host holds between calls.
#[derive(Clone, Debug, PartialEq, Eq)]
pub struct Bench {
    pub state: State,
    pub lent: Lent,
    pub area: Vec<u8>,
}

impl Bench {
    /// A fresh opening over a store of eight lines and a send-back store.
    pub fn open(settings: &str) -> Self {
        let mut lent = Lent::zeroed();
        let state = open(settings.as_bytes(), &mut lent).expect("settings");
        Bench {
            state,
            lent,
            area: vec![UNTOUCHED; AREA_BYTES],
        }
    }

    /// Calls with any text.
    pub fn text(&mut self, text: &[u8]) -> (u32, usize) {
        call(&mut self.state, &mut self.lent, text, &mut self.area)
    }

    /// Calls and gives the answer; a refused call must change nothing.
    pub fn send(&mut self, call: Call) -> u32 {
        let before = self.clone();
        let (answer, _) = self.text(&spell(&call));
        if answer != 0 {
            assert_eq!(*self, before, "refusal {answer} changed something");
        }
        answer
    }

    /// A step that must be accepted, and its records.
    pub fn step(&mut self, now: u32) -> Vec<Record> {
        let (answer, records) = self.text(&spell(&plain(now, 0, 'P')));
        assert_eq!(answer, 0);
        self.records(records)
    }

    /// The first records in the area.
    fn records(&self, count: usize) -> Vec<Record> {
        let written = self.area.chunks_exact(RECORD_BYTES).take(count);
        written
            .map(|bytes| decode(bytes).expect("record"))
            .collect()
    }

    /// Makes a display's call; a refused one, and a fetch, must change nothing but the area.
    fn display(&mut self, wish: Wish, display: u32, id: u64) -> (u32, usize) {
        let before = self.clone();
        let input = Input::Display(DisplayCall { wish, display, id });
        let (answer, records) = make(&mut self.state, &mut self.lent, input, &mut self.area);
        if answer != 0 {
            assert_eq!(*self, before, "refusal {answer} changed something");
        }
        if wish == Wish::Fetch {
            assert_eq!((&self.state, &self.lent), (&before.state, &before.lent));
        } else {
            assert_eq!(self.area, before.area);
        }
        (answer, records)
    }

    /// The answer to an acknowledgement.
    pub fn acknowledge(&mut self, display: u32, id: u64) -> u32 {
        let (answer, records) = self.display(Wish::Acknowledge, display, id);
        assert_eq!(records, 0);
        answer
    }

    /// The answer to a fetch.
    pub fn try_fetch(&mut self, display: u32, id: u64) -> u32 {
        self.display(Wish::Fetch, display, id).0
    }

    /// What a fetch gives that must be accepted.
    pub fn fetch(&mut self, display: u32, id: u64) -> Vec<Record> {
        let (answer, records) = self.display(Wish::Fetch, display, id);
        assert_eq!(answer, 0);
        self.records(records)
    }

    /// The answer to a step, whatever it is.
    pub fn try_step(&mut self, now: u32) -> u32 {
        self.send(plain(now, 0, 'P'))
    }

    /// Puts a reading into the line's first free place without any call, as a host may.
    pub fn place(&mut self, line: usize, reading: Reading) {
        let head = &mut self.state.heads[line - 1];
        self.lent.store[(line - 1) * SHARE + head.kept as usize] = reading;
        head.kept += 1;
    }

    /// Works windows of one bucket, each with a reading of so many meters, and gives the results.
    pub fn windows(&mut self, counts: &[u8]) -> Vec<Record> {
        let mut results = Vec::new();
        for &count in counts {
            self.window(count);
            let mut records = self.step(self.state.clock);
            assert_eq!(records.pop().map(|record| record.kind), Some(b'B'));
            assert_eq!(records.len(), usize::from(count));
            results.extend(records);
        }
        results
    }

    /// Puts a reading of so many meters into bucket c, as a host may, and makes it stable.
    pub fn window(&mut self, count: u8) {
        let start = self.state.c * self.state.settings.bucket;
        for meter in 0..count {
            let id = u32::from(meter) + 1;
            let value = i32::from(meter) - 9;
            self.place(
                1,
                Reading {
                    meter,
                    ..placed('S', id, start, value)
                },
            );
        }
        self.boundaries(start + self.state.settings.bucket);
    }

    /// The bytes of a result's place in the send-back store.
    pub fn held(&mut self, id: u64) -> &mut [u8] {
        let start = (id as usize - 1) % 512 * RECORD_BYTES;
        &mut self.lent.sent[start..start + RECORD_BYTES]
    }

    /// The kept readings of a line.
    pub fn kept(&self, line: usize) -> &[Reading] {
        let start = (line - 1) * SHARE;
        &self.lent.store[start..start + self.state.heads[line - 1].kept as usize]
    }

    /// Sets every line's boundary, as a host may.
    pub fn boundaries(&mut self, time: u32) {
        for head in &mut self.state.heads[..self.state.settings.lines as usize] {
            head.boundary = time;
        }
    }
}

/// A call with all but the first three fields 0.
pub fn plain(now: u32, line: u8, kind: char) -> Call {
    Call {
        now,
        line,
        kind: kind as u8,
        id: 0,
        time: 0,
        meter: 0,
        value: 0,
    }
}

/// A stable or tentative reading of meter 3.
pub fn reading(now: u32, line: u8, kind: char, id: u32, time: u32, value: i32) -> Call {
    Call {
        id,
        time,
        meter: 3,
        value,
        ..plain(now, line, kind)
    }
}

/// A boundary.
pub fn boundary(now: u32, line: u8, time: u32) -> Call {
    Call {
        time,
        ..plain(now, line, 'B')
    }
}

/// An undo.
pub fn undo(now: u32, line: u8, id: u32) -> Call {
    Call {
        id,
        ..plain(now, line, 'U')
    }
}

/// A reading in the store, of meter 3, arrived at tick 0.
pub fn placed(kind: char, id: u32, time: u32, value: i32) -> Reading {
    Reading {
        kind: kind as u8,
        id,
        time,
        meter: 3,
        value,
        arrival: 0,
    }
}

/// A meter of the operator.
pub fn meter(count: u32, sum: i64, last: i32) -> Meter {
    Meter { count, sum, last }
}

/// The text of a call, by the writer that has an area.
pub fn spell(call: &Call) -> Vec<u8> {
    let mut text = vec![0; JOURNAL_LONGEST];
    let length = write_call(call, &mut text).expect("a kind with a letter");
    text.truncate(length);
    text
}
