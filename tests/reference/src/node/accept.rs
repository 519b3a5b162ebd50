//! What an accepted journal call does to the state, the stores and the area.

use super::state::State;
use super::step::step;
use super::store::{close_up, Reading, SHARE};
use super::Lent;
use crate::text::{Call, BOUNDARY, STABLE, STEP, TENTATIVE, UNDO};

/// Does an accepted call and gives the number of records laid down.
pub(super) fn accept(state: &mut State, lent: &mut Lent, call: &Call, area: &mut [u8]) -> usize {
    state.clock = call.now;
    if call.kind == STEP {
        return step(state, lent, area);
    }
    let line = usize::from(call.line) - 1;
    let store = &mut lent.store;
    match call.kind {
        STABLE | TENTATIVE => keep(state, store, line, call),
        BOUNDARY => state.heads[line].boundary = call.time,
        UNDO => undo(state, store, line, call.id),
        _ => {}
    }
    0
}

/// Keeps a reading at the first free place of its line's share.
fn keep(state: &mut State, store: &mut [Reading], line: usize, call: &Call) {
    let head = &mut state.heads[line];
    store[line * SHARE + head.kept as usize] = Reading {
        kind: call.kind,
        id: call.id,
        time: call.time,
        meter: call.meter,
        value: call.value,
        arrival: call.now,
    };
    head.kept += 1;
    head.last_id = call.id;
    if call.kind == STABLE {
        head.last_stable_id = call.id;
    }
}

/// Strikes a line's readings above the id, which becomes the last id.
fn undo(state: &mut State, store: &mut [Reading], line: usize, id: u32) {
    close_up(state, store, line, |reading| reading.id > id);
    state.heads[line].last_id = id;
}
