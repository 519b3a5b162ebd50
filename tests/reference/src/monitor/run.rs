//! A run of the node of this crate under watch.

use super::count::{is_settled, left_in, steps_from};
use super::sent_back::{check_want, see_display_call, Shown};
use super::watch::{check_settled, Watch};
use crate::node::{call, make, open, Input, Lent, Reading, State, LINES, SENT_BYTES, SHARE};
use crate::record::{AREA_BYTES, RECORD_BYTES};
use crate::refusal::Refusal;
use crate::text::{next_line, read_call, write_call, Call, DisplayCall, Wish, JOURNAL_LONGEST};

/// What the send-back store is full of before the opening, and how many bytes it has past its places.
pub(super) const LENT_BYTE: u8 = 0xA5;
const PAST: usize = 40;

/// A node with its stores, from a fresh opening on, and the watch over it.
#[derive(Clone, Debug)]
pub struct Run {
    pub state: State,
    pub lent: Lent,
    pub watch: Watch,
}

impl Run {
    /// Opens a node with a store of exactly the places of eight lines and a longer send-back store.
    pub fn open(settings: &[u8]) -> Result<Self, Refusal> {
        let mut lent = Lent {
            store: vec![Reading::ZERO; LINES * SHARE],
            sent: vec![LENT_BYTE; SENT_BYTES + PAST],
        };
        let state = open(settings, &mut lent)?;
        let watch = Watch::new(state.settings);
        Ok(Run { state, lent, watch })
    }

    /// Plays a journal, settings line first.
    pub fn play(journal: &[u8]) -> Result<Self, String> {
        let settings = next_line(journal);
        let refused = |refusal| format!("settings refused with {}", refusal as u32);
        let mut run = Run::open(settings).map_err(refused)?;
        let mut rest = &journal[settings.len()..];
        while !rest.is_empty() {
            let text = next_line(rest);
            rest = &rest[text.len()..];
            run.feed(text)?;
        }
        Ok(run)
    }

    /// Makes any call with a fresh area of so many bytes; gives the answer.
    pub fn feed_input(&mut self, input: Input, area: &mut [u8]) -> Result<u32, String> {
        match input {
            Input::Journal(text) => self.feed_area(text, area),
            Input::Display(call) => self.feed_display(&call, area),
        }
    }

    /// Calls the node with a text and a fresh area of so many bytes; gives the answer.
    pub fn feed_area(&mut self, text: &[u8], area: &mut [u8]) -> Result<u32, String> {
        let (answer, records) = call(&mut self.state, &mut self.lent, text, area);
        if answer == Refusal::PlacesTaken as u32 {
            check_want(&self.watch)?;
        }
        let written = &area[..records * RECORD_BYTES];
        self.watch.see(read_call(text).as_ref(), answer, written)?;
        Ok(answer)
    }

    /// Makes a display's call, which is checked in all that it gives and leaves.
    pub fn feed_display(&mut self, call: &DisplayCall, area: &mut [u8]) -> Result<u32, String> {
        let (state, lent, lent_area) = (self.state.clone(), self.lent.clone(), area.to_vec());
        let reply = make(&mut self.state, &mut self.lent, Input::Display(*call), area);
        let shown = Shown {
            call,
            state: &state,
            lent: &lent,
            area: &lent_area,
        };
        see_display_call(self, &shown, area, reply)?;
        Ok(reply.0)
    }

    /// Every display acknowledges all stable results so far.
    pub fn acknowledge_all(&mut self) -> Result<(), String> {
        for display in 1..=self.state.settings.displays {
            let call = DisplayCall {
                wish: Wish::Acknowledge,
                display,
                id: self.state.newest_stable(),
            };
            let answer = self.feed_display(&call, &mut [0; AREA_BYTES])?;
            if answer != 0 {
                return Err(format!("the newest stable id refused with {answer}"));
            }
        }
        Ok(())
    }

    /// Calls the node with a text and an area of the least length.
    pub fn feed(&mut self, text: &[u8]) -> Result<u32, String> {
        self.feed_area(text, &mut [0; AREA_BYTES])
    }

    /// Calls the node with a call whose kind has a letter.
    pub fn feed_call(&mut self, call: &Call) -> Result<u32, String> {
        let mut text = [0; JOURNAL_LONGEST];
        let length = write_call(call, &mut text).map_err(|_| "a kind without a letter")?;
        self.feed(&text[..length])
    }

    /// A step at some arrival tick.
    pub fn step(&mut self, now: u32) -> Result<u32, String> {
        self.feed_call(&Call::step(now))
    }

    /// The third part of demand 3, by document 02's count: steps, each some ticks after the one
    /// before, settle it when they are as many as needed, no sooner and for good; k + 2 always are.
    /// Displays may call before each step. Whether no step was refused for want of places: only then
    /// is there a count.
    pub fn settle(
        &mut self,
        pace: u32,
        mut between: impl FnMut(&mut Run) -> Result<(), String>,
    ) -> Result<bool, String> {
        let enough = self.watch.monitor.left() + 2;
        let needed = steps_from(&self.state, self.watch.monitor.left());
        for taken in 0..enough {
            between(self)?;
            self.check_count(taken, needed)?;
            let now = self.state.clock.saturating_add(pace);
            match self.step(now)? {
                0 => {}
                15 => return Ok(false),
                answer => return Err(format!("a step refused with {answer}")),
            }
        }
        self.check_count(enough, needed)?;
        check_settled(&self.watch)?;
        Ok(true)
    }

    /// Whether so many steps of those needed have left what they should.
    fn check_count(&self, taken: u32, needed: u32) -> Result<(), String> {
        let left = self.watch.monitor.left();
        if left_in(&self.state) != left {
            return Err(format!("{left} buckets left, otherwise by the state"));
        }
        if is_settled(&self.state, left) != (taken >= needed) {
            return Err(format!("{taken} steps of {needed} needed, {left} left"));
        }
        Ok(())
    }
}
