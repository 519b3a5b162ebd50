//! The monitor, which is document 01's day book (section 'From the opening on'), and the checks of
//! demand 3 that rest on it, with code of its own throughout; what is sent back to displays (document
//! 02, W2), how many steps settle a box (W4), and the heat balance (W11).

mod balance;
mod count;
mod failure_free;
mod output;
mod replica;
mod run;
mod sent_back;
mod watch;

pub use balance::{balance_text, check_balance, kept_heat, open_heat, paid_heat, Balance, Heat};
pub use count::{is_settled, left_in, steps_from, steps_needed};
pub use failure_free::failure_free;
pub use output::Output;
pub use replica::{are_replicas, check_replicas};
pub use run::Run;
pub use sent_back::check_sent;
pub use watch::{check, check_settled, Watch};

use crate::text::{Call, Settings, BOUNDARY, STABLE, STEP, TENTATIVE, UNDO};

/// A reading that the monitor has noted.
#[derive(Clone, Copy, Debug)]
struct Noted {
    line: u8,
    id: u32,
    time: u32,
    arrival: u32,
}

/// Document 01's day book: it follows a list of calls by what their lines say and how they were
/// answered, and knows nothing else of the box but its settings.
#[derive(Clone, Debug)]
pub struct Monitor {
    settings: Settings,
    noted: Vec<Noted>,
    boundaries: Vec<u32>,
    d: u32,
    t: u32,
    mark: bool,
}

impl Monitor {
    /// The monitor at a fresh opening with settings within their limits.
    pub fn new(settings: Settings) -> Self {
        Monitor {
            settings,
            noted: Vec::new(),
            boundaries: vec![0; settings.lines as usize],
            d: 0,
            t: 0,
            mark: false,
        }
    }

    /// How many buckets are worked as stable, which is also the number of the next one.
    pub fn d(&self) -> u32 {
        self.d
    }

    /// The bucket that work goes on with, stable or tentative.
    pub fn t(&self) -> u32 {
        self.t
    }

    /// Whether a withdrawal waits for the R record that ends it.
    pub fn mark(&self) -> bool {
        self.mark
    }

    /// Each line's boundary.
    pub fn boundaries(&self) -> &[u32] {
        &self.boundaries
    }

    /// Whether the next step would work a stable bucket.
    pub fn works_stable(&self) -> bool {
        self.left() > 0 && self.d == self.t
    }

    /// How many finished buckets still wait for their stable work.
    pub fn left(&self) -> u32 {
        self.finished() - self.d
    }

    /// Notes a call; only accepted ones matter, and a text without the form has no fields.
    pub fn note(&mut self, call: Option<&Call>, accepted: bool) {
        let Some(call) = call.filter(|_| accepted) else {
            return;
        };
        match call.kind {
            STABLE | TENTATIVE => self.noted.push(Noted {
                line: call.line,
                id: call.id,
                time: call.time,
                arrival: call.now,
            }),
            BOUNDARY => self.boundaries[call.line as usize - 1] = call.time,
            UNDO => {
                let struck = |noted: &Noted| noted.line == call.line && noted.id > call.id;
                self.noted.retain(|noted| !struck(noted));
            }
            STEP => self.note_step(call.now),
            _ => {}
        }
    }

    /// The number of buckets that the least boundary has finished.
    fn finished(&self) -> u32 {
        let mut least = u32::MAX;
        for &boundary in &self.boundaries {
            if boundary < least {
                least = boundary;
            }
        }
        (least - least % self.settings.bucket) / self.settings.bucket
    }

    fn note_step(&mut self, now: u32) {
        let open = self.d < self.finished();
        match (open, self.d < self.t, self.mark) {
            (true, true, _) => {
                self.t = self.d;
                self.mark = true;
            }
            (true, false, _) => {
                self.d += 1;
                self.t = self.d;
            }
            (false, _, true) => self.mark = false,
            (false, _, false) => self.t += u32::from(self.waited_out(now)),
        }
    }

    /// Whether some noted reading, not earlier than bucket t, has waited as long as the hold.
    fn waited_out(&self, now: u32) -> bool {
        self.noted.iter().rev().any(|noted| {
            let late_enough = noted.time / self.settings.bucket >= self.t;
            let waited = i64::from(now) - i64::from(noted.arrival);
            late_enough && waited >= i64::from(self.settings.hold)
        })
    }
}
