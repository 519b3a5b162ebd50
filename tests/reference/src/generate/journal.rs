//! An input under way, with a node beside it so that calls can be aimed at its state.

use std::io::{self, Write};

use super::display::aimed_display_call;
use super::malformed::spoil_text;
use super::random::Random;
use crate::node::{make, open, Input, Lent, State};
use crate::playback::{acknowledge_all, Mode};
use crate::record::AREA_BYTES;
use crate::text::{next_line, read_call, spell_call, spell_display_call, Call, Wish, LINE_END};

/// The input written so far, and what a node has become by it.
pub(super) struct Journal<'a> {
    output: &'a mut dyn Write,
    mode: Mode,
    left: u64,
    rare: u64,
    /// Between two calls of displays at a console about so many journal lines stand.
    pause: u64,
    /// Whether display 1 hardly ever acknowledges anything.
    lazy: bool,
    unended: Vec<u8>,
    pub(super) random: Random,
    pub(super) state: State,
    pub(super) lent: Lent,
    area: [u8; AREA_BYTES],
}

impl<'a> Journal<'a> {
    /// Writes the settings line; none where a node refuses it.
    pub(super) fn open(
        mode: Mode,
        settings: &[u8],
        lines: u64,
        mut random: Random,
        output: &'a mut dyn Write,
    ) -> io::Result<Option<Self>> {
        output.write_all(settings)?;
        let mut lent = Lent::zeroed();
        let opened = open(settings, &mut lent);
        let (pause, lazy) = (random.pick(&[5, 20, 50, 50, 200]), random.once_in(2));
        Ok(opened.ok().map(|state| Journal {
            output,
            mode,
            left: lines,
            rare: (lines / 2).max(400),
            pause,
            lazy,
            unended: Vec::new(),
            random,
            state,
            lent,
            area: [0; AREA_BYTES],
        }))
    }

    /// Whether all lines asked for are written.
    pub(super) fn is_full(&self) -> bool {
        self.left == 0
    }

    /// Writes a call, unless the journal is full, and gives the node's answer.
    pub(super) fn put(&mut self, call: &Call) -> io::Result<u32> {
        self.put_text(&spell_call(call))
    }

    /// Writes any text, which may be several lines or a part of one that goes on with the next
    /// text; the answer to the last line that it ends.
    pub(super) fn put_text(&mut self, text: &[u8]) -> io::Result<u32> {
        let mut rest = text;
        let mut answer = 0;
        while !rest.is_empty() && !self.is_full() {
            let stretch = next_line(rest);
            rest = &rest[stretch.len()..];
            self.output.write_all(stretch)?;
            self.unended.extend_from_slice(stretch);
            if stretch.last() == Some(&LINE_END) {
                answer = self.play();
                self.displays_call()?;
            }
        }
        Ok(answer)
    }

    /// Plays the line that has just ended, as the program would.
    fn play(&mut self) -> u32 {
        let input = match self.mode {
            Mode::Merge | Mode::Replay => Input::Journal(&self.unended),
            Mode::Console => Input::of_line(&self.unended),
        };
        let answer = make(&mut self.state, &mut self.lent, input, &mut self.area).0;
        if self.mode == Mode::Replay {
            acknowledge_all(&mut self.state, &mut self.lent);
        }
        self.unended.clear();
        self.left -= 1;
        answer
    }

    /// At a console, now and then, the call of a display or several; once in a while a broken one.
    fn displays_call(&mut self) -> io::Result<()> {
        if self.mode != Mode::Console || !self.random.once_in(self.pause) {
            return Ok(());
        }
        let count = self.random.pick(&[1, 1, 1, 2, 5]);
        for _ in 0..self.left.min(count) {
            let call = aimed_display_call(&mut self.random, &self.state);
            let rests = self.lazy && call.wish == Wish::Acknowledge && call.display == 1;
            if rests && !self.random.once_in(40) {
                continue;
            }
            let mut text = spell_display_call(&call);
            if self.random.once_in(16) {
                text = spoil_text(&mut self.random, &text);
            }
            if text.last() == Some(&LINE_END) && next_line(&text) == text {
                self.output.write_all(&text)?;
                self.unended = text;
                self.play();
            }
        }
        Ok(())
    }

    /// Whether something is due that happens but a few times in a journal.
    pub(super) fn rarely(&mut self) -> bool {
        self.random.once_in(self.rare)
    }

    /// Whether a text would take a clock or a boundary so far that little could happen after it.
    pub(super) fn leaps(&self, text: &[u8]) -> bool {
        let length = u64::from(self.state.settings.bucket);
        let near = (u64::from(self.state.c.max(self.state.p)) + 20) * length;
        read_call(text).is_some_and(|call| {
            u64::from(call.time) > near || call.now > self.state.clock.saturating_add(900_000)
        })
    }

    /// Writes a last stretch of bytes as they are; only the end of the input may follow.
    pub(super) fn put_tail(&mut self, bytes: &[u8]) -> io::Result<()> {
        self.output.write_all(bytes)
    }
}
