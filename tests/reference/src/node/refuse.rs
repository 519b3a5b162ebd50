//! Refusals 7 to 15 of a journal line that has the form, the first that fits.

use super::operator::METERS;
use super::sent::free_places;
use super::state::{Head, State};
use super::step::results_ahead;
use super::store::{kept, Reading, SHARE};
use crate::refusal::Refusal;
use crate::text::{Call, BOUNDARY, DONE, STABLE, STEP, TENTATIVE, UNDO};

/// The first of refusals 7 to 15 that fits a call on a state and stores in shape.
pub fn refusal_of_sender(state: &State, store: &[Reading], call: &Call) -> Option<Refusal> {
    if call.now < state.clock {
        return Some(Refusal::ClockBack);
    }
    if call.kind == STEP {
        if call.line != 0 {
            return Some(Refusal::WrongLine);
        }
        if unused_fields_set(call) {
            return Some(Refusal::UnusedField);
        }
        let lacking = results_ahead(state, store) > free_places(state);
        return lacking.then_some(Refusal::PlacesTaken);
    }
    if call.line == 0 || u32::from(call.line) > state.settings.lines {
        return Some(Refusal::WrongLine);
    }
    let line = usize::from(call.line) - 1;
    refusal_of_line(&state.heads[line], kept(state, store, line), call)
}

/// Refusals 9 to 14, for a call of a line that exists.
fn refusal_of_line(head: &Head, readings: &[Reading], call: &Call) -> Option<Refusal> {
    if unused_fields_set(call) {
        return Some(Refusal::UnusedField);
    }
    if call.is_reading() && usize::from(call.meter) >= METERS {
        return Some(Refusal::MeterTooHigh);
    }
    if !id_fits(head, call) {
        return Some(Refusal::WrongId);
    }
    if (call.is_reading() || call.kind == BOUNDARY) && call.time < head.boundary {
        return Some(Refusal::BelowBoundary);
    }
    if matches!(call.kind, STABLE | BOUNDARY | DONE)
        && readings.iter().any(|reading| reading.kind == TENTATIVE)
    {
        return Some(Refusal::TentativeKept);
    }
    (call.is_reading() && readings.len() == SHARE).then_some(Refusal::LineFull)
}

/// Whether a field that the call's kind does not use is other than 0.
fn unused_fields_set(call: &Call) -> bool {
    let (id, time) = (call.id != 0, call.time != 0);
    let reading = call.meter != 0 || call.value != 0;
    match call.kind {
        STABLE | TENTATIVE => false,
        BOUNDARY => id || reading,
        UNDO => time || reading,
        _ => id || time || reading,
    }
}

/// Whether the id is as the kind asks; after the greatest id no reading's id fits.
fn id_fits(head: &Head, call: &Call) -> bool {
    match call.kind {
        STABLE | TENTATIVE => head.last_id.checked_add(1) == Some(call.id),
        UNDO => head.last_stable_id <= call.id && call.id <= head.last_id,
        _ => true,
    }
}
