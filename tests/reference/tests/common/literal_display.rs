//! What the slow double does for displays: place by place, and with numbers that cannot overflow.

use reference::node::State;
use reference::record::{encode, Record};
use reference::text::{Call, DisplayCall, Wish};

use super::literal::Outcome;
use super::literal_step::accept;

/// The ids that the displays have acknowledged.
fn acknowledged(state: &State) -> Vec<i128> {
    let displays = state.settings.displays as usize;
    let ids = state.acknowledged.iter().take(displays);
    ids.map(|&id| i128::from(id)).collect()
}

fn least(state: &State) -> i128 {
    acknowledged(state).into_iter().min().unwrap()
}

fn newest(state: &State) -> i128 {
    i128::from(state.checkpoint.newest)
}

/// The id of the result that a place holds, if it holds one: of all ids that have this place, the
/// greatest up to the newest, unless all have acknowledged it.
fn held_at(state: &State, place: usize) -> Option<i128> {
    let newest = newest(state);
    let id = newest - (newest - 1 - place as i128).rem_euclid(512);
    (id > least(state)).then_some(id)
}

fn number(bytes: &[u8]) -> i128 {
    let digits = bytes.iter().rev();
    digits.fold(0, |number, &byte| number * 256 + i128::from(byte))
}

/// Whether displays and held places are in shape, in a state that is so otherwise.
pub fn shape_of_displays(state: &State, sent: &[u8]) -> bool {
    let near = |id: &i128| (0..=512).contains(&(newest(state) - id));
    acknowledged(state).iter().all(near)
        && sent.chunks(32).take(512).enumerate().all(|(place, bytes)| {
            let own = |id| bytes[0] == b'S' && number(&bytes[4..8]) == id;
            held_at(state, place).is_none_or(own)
        })
}

/// Whether a step, were it done, would work a stable bucket and give more results than fit.
pub fn lacks_places(outcome: &Outcome, call: &Call) -> bool {
    if call.kind != b'P' {
        return false;
    }
    let state = &outcome.state;
    let free = (0..512).filter(|&place| held_at(state, place).is_none());
    let mut tried = outcome.clone();
    accept(&mut tried, call);
    tried.state.c > state.c && stable_results(&tried).len() > free.count()
}

/// The stable results among the records that a call has laid down.
fn stable_results(outcome: &Outcome) -> Vec<Vec<u8>> {
    let laid = outcome.area.chunks(32).take(outcome.records);
    let stable = laid.filter(|bytes| bytes[0] == b'S');
    stable.map(|bytes| bytes.to_vec()).collect()
}

/// Copies the stable results of a step to their places.
pub fn hold(outcome: &mut Outcome) {
    for result in stable_results(outcome) {
        let place = (number(&result[4..8]) - 1) % 512;
        let start = 32 * place as usize;
        outcome.lent.sent[start..start + 32].copy_from_slice(&result);
    }
}

/// Refusals 16 and 17 of a display's call.
pub fn refused_display(state: &State, call: &DisplayCall) -> u32 {
    let (id, newest) = (i128::from(call.id), newest(state));
    if call.display < 1 || call.display > state.settings.displays {
        return 16;
    }
    let own = acknowledged(state)[call.display as usize - 1];
    let wrong = match call.wish {
        Wish::Acknowledge => id < own || id > newest,
        Wish::Fetch => id == 0 || id <= least(state) || id > newest + 1,
    };
    if wrong {
        17
    } else {
        0
    }
}

/// What an accepted call of a display does.
pub fn accept_display(outcome: &mut Outcome, call: &DisplayCall) {
    match call.wish {
        Wish::Acknowledge => {
            let before: Vec<bool> = places_held(&outcome.state);
            outcome.state.acknowledged[call.display as usize - 1] = call.id;
            let after = places_held(&outcome.state);
            for (place, bytes) in outcome.lent.sent.chunks_mut(32).take(512).enumerate() {
                if before[place] && !after[place] {
                    bytes.fill(0);
                }
            }
        }
        Wish::Fetch => {
            let last = newest(&outcome.state).min(i128::from(call.id) + 63);
            for id in i128::from(call.id)..=last {
                let start = 32 * ((id - 1) % 512) as usize;
                let record = record_at(&outcome.lent.sent[start..start + 32]);
                let room = 32 * outcome.records;
                outcome.area[room..room + 32].copy_from_slice(&encode(&record));
                outcome.records += 1;
            }
        }
    }
}

fn places_held(state: &State) -> Vec<bool> {
    (0..512)
        .map(|place| held_at(state, place).is_some())
        .collect()
}

/// The record of a place, field by field.
fn record_at(bytes: &[u8]) -> Record {
    let four = |place: usize| number(&bytes[place..place + 4]) as u32;
    Record {
        kind: bytes[0],
        meter: bytes[1],
        id: four(4),
        time: four(8),
        count: four(12),
        sum: number(&bytes[16..24]) as u64 as i64,
        mean: four(24) as i32,
        last: four(28) as i32,
    }
}
