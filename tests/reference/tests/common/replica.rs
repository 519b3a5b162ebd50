//! A replica's list: the same stable input on each line, all else made anew, its displays' calls too.

use std::collections::VecDeque;

use reference::generate::{aimed_display_call, Random};
use reference::monitor::Run;
use reference::node::{free_places, METERS};
use reference::record::AREA_BYTES;
use reference::text::{write_settings, Call};

use super::{plain, reading, undo};

/// A replica under way, with what its lines have still to be given.
struct Replica<'a> {
    run: Run,
    waiting: Vec<VecDeque<Call>>,
    random: &'a mut Random,
}

/// Gives a second box the accepted stable readings and boundaries of a first one, in another
/// order between the lines, at other ticks, and with tentative readings, undos and steps between.
/// Of the boundaries some are left out, but not the greatest. None where a line stays full.
pub fn replica(one: &Run, accepted: &[Call], random: &mut Random) -> Option<Run> {
    let settings = write_settings(&one.state.settings);
    let mut waiting = vec![VecDeque::new(); one.state.settings.lines as usize];
    for call in accepted {
        let line = usize::from(call.line).wrapping_sub(1);
        let greatest = || call.time == one.state.heads[line].boundary;
        if call.kind == b'S' || (call.kind == b'B' && (greatest() || !random.once_in(4))) {
            waiting[line].push_back(*call);
        }
    }
    let mut replica = Replica {
        run: Run::open(&settings).ok()?,
        waiting,
        random,
    };
    let mut stuck = 0;
    while replica.waiting.iter().any(|line| !line.is_empty()) {
        stuck = if replica.turn() { 0 } else { stuck + 1 };
        if stuck > 200 {
            return None;
        }
    }
    Some(replica.run)
}

impl Replica<'_> {
    fn now(&mut self) -> u32 {
        let later = self.random.pick(&[0, 0, 1, 13, 200]);
        self.run.state.clock.saturating_add(later)
    }

    fn feed(&mut self, call: &Call) -> bool {
        self.run.feed_call(call).expect("a clean output") == 0
    }

    /// One more call or a few; whether some line's input went on.
    fn turn(&mut self) -> bool {
        self.displays();
        let line = self.random.below(self.waiting.len() as u64) as usize;
        let now = self.now();
        match self.random.below(6) {
            0 | 1 => {
                self.feed(&plain(now, 0, 'P'));
                false
            }
            2 if self.random.once_in(3) => {
                self.tentative(line);
                false
            }
            3 if self.random.once_in(8) => {
                self.feed(&plain(now, line as u8 + 1, 'R'));
                false
            }
            _ => self.input(line, now),
        }
    }

    /// The call of a display now and then; where places may be wanting, all acknowledge in the end.
    fn displays(&mut self) {
        if self.random.once_in(20) {
            let call = aimed_display_call(self.random, &self.run.state);
            let area = &mut [0; AREA_BYTES];
            self.run.feed_display(&call, area).expect("a sound reply");
        }
        if free_places(&self.run.state) < METERS && self.random.once_in(50) {
            self.run.acknowledge_all().expect("sound replies");
        }
    }

    /// Hands over the next reading or boundary of a line.
    fn input(&mut self, line: usize, now: u32) -> bool {
        let Some(next) = self.waiting[line].front() else {
            return false;
        };
        let call = Call { now, ..*next };
        let accepted = self.feed(&call);
        if accepted {
            self.waiting[line].pop_front();
        }
        accepted
    }

    /// Some tentative readings of a line, perhaps a step, and the undo of all of them.
    fn tentative(&mut self, line: usize) {
        let number = line as u8 + 1;
        for _ in 0..self.random.between(1, 3) {
            let head = self.run.state.heads[line];
            let time = head.boundary.saturating_add(self.random.below(300) as u32);
            let now = self.now();
            self.feed(&reading(now, number, 'T', head.last_id + 1, time, 5));
        }
        if self.random.once_in(2) {
            let now = self.now();
            self.feed(&plain(now, 0, 'P'));
        }
        let id = self.run.state.heads[line].last_stable_id;
        let now = self.now();
        assert!(self.feed(&undo(now, number, id)));
    }
}
