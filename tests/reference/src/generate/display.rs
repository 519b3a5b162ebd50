//! Calls of displays aimed at a state: most fit, and those that do not are off by little.

use super::random::Random;
use crate::node::{State, DISPLAYS, FETCH_LIMIT, HELD};
use crate::text::{DisplayCall, Wish};

/// A display's call that most often no refusal fits, whatever the state holds.
pub fn aimed_display_call(random: &mut Random, state: &State) -> DisplayCall {
    let displays = u64::from(state.settings.displays).clamp(1, DISPLAYS as u64);
    let own = random.below(displays) as usize;
    let ids = &state.acknowledged[..displays as usize];
    let least = ids.iter().copied().min().unwrap_or(0);
    let wish = random.pick(&[Wish::Acknowledge, Wish::Fetch]);
    let id = match wish {
        Wish::Acknowledge => aimed_acknowledgement(random, state, ids[own]),
        Wish::Fetch => aimed_fetch(random, state, least),
    };
    let mut display = own as u32 + 1;
    if random.once_in(12) {
        let above = state.settings.displays.wrapping_add(1);
        display = random.pick(&[0, above, above, DISPLAYS as u32 + 1, u32::MAX]);
    }
    DisplayCall { wish, display, id }
}

/// An id up to which a display may acknowledge, often one beside.
fn aimed_acknowledgement(random: &mut Random, state: &State, last: u64) -> u64 {
    let newest = state.newest_stable();
    let ahead = newest.saturating_sub(last);
    let part = last.saturating_add(random.below(ahead.min(HELD as u64) + 1));
    let few = last.saturating_add(random.below(5)).min(newest);
    match random.below(16) {
        0 => last.wrapping_sub(1),
        1 => newest.wrapping_add(1),
        2 => state.operator.newest,
        3 => odd_id(random),
        4 | 5 => last,
        6..=8 => newest,
        9 | 10 => few,
        _ => part,
    }
}

/// An id from which a display may fetch, often one beside.
fn aimed_fetch(random: &mut Random, state: &State, least: u64) -> u64 {
    let newest = state.newest_stable();
    let ahead = newest.saturating_sub(least);
    let part = least.saturating_add(1 + random.below(ahead.min(HELD as u64) + 1));
    match random.below(16) {
        0 => least,
        1 => newest.wrapping_add(2),
        2 => state.operator.newest.wrapping_add(random.below(3)),
        3 => odd_id(random),
        4 | 5 => newest.wrapping_add(1),
        6 => newest,
        7 | 8 => least.wrapping_add(1),
        9 => newest.wrapping_sub(FETCH_LIMIT - random.below(3)),
        _ => part,
    }
}

fn odd_id(random: &mut Random) -> u64 {
    let any = random.bits();
    random.pick(&[0, 0, 1, 513, 1 << 32, u64::MAX - 1, u64::MAX, any])
}
