//! The two calls of a display: it acknowledges stable results, or is sent them again (document 02, W2).

use super::sent::{give_up, held, place_of};
use super::state::State;
use super::{host_refusal, Lent};
use crate::record::{AREA_BYTES, RECORD_BYTES};
use crate::refusal::{answer, Refusal};

/// The most results that a fetch gives.
pub const FETCH_LIMIT: u64 = 64;

/// A display acknowledges all stable results up to an id: the answer, and no record.
pub fn acknowledge(
    state: &mut State,
    lent: &mut Lent,
    display: u32,
    id: u64,
    area: &[u8],
) -> (u32, usize) {
    let outcome = display_refusal(state, lent, display, area);
    let outcome = outcome.and_then(|own| {
        let fits = state.acknowledged[own] <= id && id <= state.newest_stable();
        fits.then_some(own).ok_or(Refusal::WrongResult)
    });
    if let Ok(own) = outcome {
        let before = state.least_acknowledged();
        state.acknowledged[own] = id;
        give_up(&mut lent.sent, before + 1..=state.least_acknowledged());
    }
    (answer(&outcome), 0)
}

/// A display is sent the stable results from an id on, as many as there are up to 64: the answer and
/// the number of records laid down in the area. Nothing but the area changes.
pub fn fetch(state: &State, lent: &Lent, display: u32, id: u64, area: &mut [u8]) -> (u32, usize) {
    let outcome = display_refusal(state, lent, display, area);
    let outcome = outcome.and_then(|_| {
        let (first, newest) = (*held(state).start(), state.newest_stable());
        let fits = first <= id && id <= newest + 1;
        fits.then(|| (newest + 1 - id).min(FETCH_LIMIT))
            .ok_or(Refusal::WrongResult)
    });
    let count = outcome.unwrap_or(0);
    for (next, room) in (id..id.saturating_add(count)).zip(area.chunks_exact_mut(RECORD_BYTES)) {
        room.copy_from_slice(&lent.sent[place_of(next)]);
        // a record's two zero bytes, whatever a host has put there
        room[2..4].fill(0);
    }
    (answer(&outcome), count as usize)
}

/// Refusals 3, 4, 5 and 16 of both calls, else the display's entry.
fn display_refusal(
    state: &State,
    lent: &Lent,
    display: u32,
    area: &[u8],
) -> Result<usize, Refusal> {
    if let Some(refusal) = host_refusal(state, lent) {
        return Err(refusal);
    }
    if area.len() < AREA_BYTES {
        return Err(Refusal::AreaShort);
    }
    if display == 0 || display > state.settings.displays {
        return Err(Refusal::WrongDisplay);
    }
    Ok(display as usize - 1)
}
