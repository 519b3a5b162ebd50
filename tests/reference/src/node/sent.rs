//! The lent send-back store: 512 places of a record each, with the stable results that some display
//! has not acknowledged (document 02, W2).

use std::ops::{Range, RangeInclusive};

use super::state::State;
use crate::record::{encode, Record, RECORD_BYTES};
use crate::text::STABLE;

/// The stable results that the send-back store has places for.
pub const HELD: usize = 512;
/// The least bytes of a send-back store.
pub const SENT_BYTES: usize = HELD * RECORD_BYTES;

/// The bytes of a result's place; ids begin with 1.
pub fn place_of(id: u64) -> Range<usize> {
    let start = (id - 1) as usize % HELD * RECORD_BYTES;
    start..start + RECORD_BYTES
}

/// The ids still held in a state in shape: not yet acknowledged by all, up to the newest stable one.
pub fn held(state: &State) -> RangeInclusive<u64> {
    state.least_acknowledged() + 1..=state.newest_stable()
}

/// The places that no result takes, in a state in shape.
pub fn free_places(state: &State) -> usize {
    HELD - (state.newest_stable() - state.least_acknowledged()) as usize
}

/// Whether no display is ahead of the newest stable result or more than all places behind it, and
/// every held place has a stable result of its own id; the store is not short, and the settings are
/// within their limits. Nothing else of a place is looked at.
pub(super) fn sent_in_shape(state: &State, sent: &[u8]) -> bool {
    let newest = state.newest_stable();
    let near = |&last: &u64| last <= newest && newest - last <= HELD as u64;
    state.displays().iter().all(near) && held(state).all(|id| is_own(&sent[place_of(id)], id))
}

fn is_own(place: &[u8], id: u64) -> bool {
    let own = [place[4], place[5], place[6], place[7]];
    place[0] == STABLE && u64::from(u32::from_le_bytes(own)) == id
}

/// Lays a stable result down at its place.
pub(super) fn hold(sent: &mut [u8], result: &Record) {
    sent[place_of(u64::from(result.id))].copy_from_slice(&encode(result));
}

/// Zeroes the places of these results.
pub(super) fn give_up(sent: &mut [u8], ids: RangeInclusive<u64>) {
    for id in ids {
        sent[place_of(id)].fill(0);
    }
}
