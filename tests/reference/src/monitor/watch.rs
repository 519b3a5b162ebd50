//! A watch over a list of calls on any box, and the checks of demand 3 on what it saw.

use super::failure_free::failure_free;
use super::output::Output;
use super::Monitor;
use crate::record::RECORD_BYTES;
use crate::text::{Call, DisplayCall, Settings, Wish, STABLE};

/// What demand 3 speaks of: the monitor, the accepted stable readings and the output; and what each
/// display has acknowledged, by its calls and their answers.
#[derive(Clone, Debug)]
pub struct Watch {
    pub settings: Settings,
    pub monitor: Monitor,
    pub stable: Vec<Call>,
    pub output: Output,
    pub acknowledged: Vec<u64>,
}

impl Watch {
    /// A watch from a fresh opening on.
    pub fn new(settings: Settings) -> Self {
        Watch {
            settings,
            monitor: Monitor::new(settings),
            stable: Vec::new(),
            output: Output::default(),
            acknowledged: vec![0; settings.displays as usize],
        }
    }

    /// Sees one journal call: its fields if it has the form, its answer, and its records' bytes.
    pub fn see(&mut self, call: Option<&Call>, answer: u32, records: &[u8]) -> Result<(), String> {
        let accepted = answer == 0;
        if !accepted && !records.is_empty() {
            return Err("records from a refused call".into());
        }
        self.monitor.note(call, accepted);
        if let Some(call) = call.filter(|call| accepted && call.kind == STABLE) {
            self.stable.push(*call);
        }
        self.output.read(records)
    }

    /// Sees a display's call; the monitor passes it over, and what was fetched is no output.
    pub fn see_display(&mut self, call: &DisplayCall, answer: u32) {
        if answer == 0 && call.wish == Wish::Acknowledge {
            self.acknowledged[call.display as usize - 1] = call.id;
        }
    }

    /// The results of the failure-free run over the list so far.
    pub fn results_due(&self) -> Vec<[u8; RECORD_BYTES]> {
        failure_free(&self.settings, &self.stable, self.monitor.d())
    }

    /// The id up to which all displays have acknowledged.
    pub fn least_acknowledged(&self) -> u64 {
        let mut ids = self.acknowledged.clone();
        ids.sort();
        ids[0]
    }
}

/// The first part of demand 3: the output is clean, nothing stable was struck, and the stable
/// results are those of the failure-free run.
pub fn check(watch: &Watch) -> Result<(), String> {
    let stable = watch.output.stable()?;
    if watch.output.struck_stable() {
        return Err("an undo has struck a stable result".into());
    }
    let due = watch.results_due();
    if stable != due {
        return Err(format!("stable results {stable:?}, failure-free {due:?}"));
    }
    Ok(())
}

/// The end of demand 3: after the k + 2 steps no stable bucket is left and no undo waits for its R.
pub fn check_settled(watch: &Watch) -> Result<(), String> {
    if watch.monitor.left() != 0 {
        return Err(format!("{} stable buckets left", watch.monitor.left()));
    }
    if watch.output.mark_due() || watch.monitor.mark() {
        return Err("an undo waits for its R".into());
    }
    Ok(())
}
