//! What is sent back to displays (document 02, W2): the store holds the failure-free results that
//! some display has not acknowledged, a fetch gives them byte by byte, and a step waits only for
//! want of places. What was acknowledged is read off the calls and their answers.

use super::failure_free::failure_free;
use super::run::{Run, LENT_BYTE};
use super::watch::Watch;
use crate::node::{Lent, State};
use crate::text::{DisplayCall, Wish};

/// The stable results that are held at most.
const MOST_HELD: u64 = 512;
/// The stable results that one fetch gives at most.
const MOST_FETCHED: usize = 64;
/// The bytes of a record, and those of the least area.
const RECORD: usize = 32;
const LEAST_AREA: usize = 65 * RECORD;

/// After any list of calls: the failure-free results that some display has not acknowledged, each at
/// its place, zeros in the other places, and what was lent behind them.
pub fn check_sent(run: &Run) -> Result<(), String> {
    check_held(run, &run.watch.results_due())
}

/// The same, with these failure-free results.
fn check_held(run: &Run, results: &[[u8; RECORD]]) -> Result<(), String> {
    let least = run.watch.least_acknowledged();
    let newest = results.len() as u64;
    if newest < least || newest - least > MOST_HELD {
        return Err(format!("acknowledged up to {least} of {newest}"));
    }
    let mut due = vec![LENT_BYTE; run.lent.sent.len()];
    due[..MOST_HELD as usize * RECORD].fill(0);
    for (before, result) in results.iter().enumerate().skip(least as usize) {
        let start = before % MOST_HELD as usize * RECORD;
        due[start..start + RECORD].copy_from_slice(result);
    }
    match due.iter().zip(&run.lent.sent).position(|(a, b)| a != b) {
        Some(place) => Err(format!("byte {place} of the send-back store")),
        None => Ok(()),
    }
}

/// A display's call, with what was handed over before it.
pub(super) struct Shown<'a> {
    pub(super) call: &'a DisplayCall,
    pub(super) state: &'a State,
    pub(super) lent: &'a Lent,
    pub(super) area: &'a [u8],
}

impl Shown<'_> {
    /// The answer due after the list that the watch has seen, with so many results out.
    fn answer_due(&self, watch: &Watch, newest: u64) -> u32 {
        let own = (self.call.display as usize).checked_sub(1);
        let last = own.and_then(|own| watch.acknowledged.get(own));
        let least = watch.least_acknowledged();
        match (last, self.call.wish) {
            _ if self.area.len() < LEAST_AREA => 5,
            (None, _) => 16,
            (Some(last), Wish::Acknowledge) if (*last..=newest).contains(&self.call.id) => 0,
            (Some(_), Wish::Fetch) if (least + 1..=newest + 1).contains(&self.call.id) => 0,
            _ => 17,
        }
    }
}

/// A display's call, the answer and number of records that it got, and all that it left. The watch
/// sees it here.
pub(super) fn see_display_call(
    run: &mut Run,
    shown: &Shown,
    area: &[u8],
    (answer, records): (u32, usize),
) -> Result<(), String> {
    let results = run.watch.results_due();
    let due = shown.answer_due(&run.watch, results.len() as u64);
    if answer != due {
        return Err(format!("{:?} got {answer} for {due}", shown.call));
    }
    let mut given = Vec::new();
    if answer == 0 && shown.call.wish == Wish::Fetch {
        let from = results.iter().skip(shown.call.id as usize - 1);
        given = from.take(MOST_FETCHED).flatten().copied().collect();
    }
    if given.len() != records * RECORD {
        return Err(format!("{:?} gave {records} records", shown.call));
    }
    let rest = &shown.area[given.len()..];
    if area != [&given, rest].concat() {
        return Err(format!("{:?} left another area", shown.call));
    }
    run.watch.see_display(shown.call, answer);
    let mut state = shown.state.clone();
    if answer == 0 && shown.call.wish == Wish::Acknowledge {
        state.acknowledged[shown.call.display as usize - 1] = shown.call.id;
        check_held(run, &results)?;
    } else if run.lent.sent != shown.lent.sent {
        return Err(format!("{:?} changed the send-back store", shown.call));
    }
    if run.state != state || run.lent.store != shown.lent.store {
        return Err(format!("{:?} changed something else", shown.call));
    }
    Ok(())
}

/// A step refused for want of places: rule 2 was next, and would give more results than fit.
pub(super) fn check_want(watch: &Watch) -> Result<(), String> {
    if !watch.monitor.works_stable() {
        return Err("no places wanted, for rule 2 is not next".into());
    }
    let next = watch.monitor.d() + 1;
    let results = failure_free(&watch.settings, &watch.stable, next).len() as u64;
    if results <= watch.least_acknowledged() + MOST_HELD {
        return Err(format!("no places wanted for {results} results"));
    }
    Ok(())
}
