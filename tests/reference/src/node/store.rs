//! The lent store: one share for each line, with the line's kept readings in front.

use super::state::State;

/// The places of one line's share.
pub const SHARE: usize = 256;

/// One place of the store; the kind is the letter's byte, 0 in a free place.
#[derive(Clone, Copy, Debug, PartialEq, Eq)]
pub struct Reading {
    pub kind: u8,
    pub id: u32,
    pub time: u32,
    pub meter: u8,
    pub value: i32,
    pub arrival: u32,
}

impl Reading {
    /// A place that is given up, or fresh from the opening.
    pub const ZERO: Reading = Reading {
        kind: 0,
        id: 0,
        time: 0,
        meter: 0,
        value: 0,
        arrival: 0,
    };
}

/// A store as a caller lends it, of any length.
pub type Store = [Reading];

/// The length of a store kept as six columns: the least of their lengths.
pub fn store_length(columns: [usize; 6]) -> usize {
    columns.into_iter().fold(usize::MAX, usize::min)
}

/// Whether a store of this length is too short for so many lines, whatever their number.
pub fn is_short(lines: u32, length: usize) -> bool {
    (length as u128) < u128::from(lines) * SHARE as u128
}

/// The kept readings of a line counted from 0, in a state and store found in shape.
pub(super) fn kept<'a>(state: &State, store: &'a [Reading], line: usize) -> &'a [Reading] {
    let start = line * SHARE;
    &store[start..start + state.heads[line].kept as usize]
}

/// Lets some readings of a share go: the others close up in order, and the places won are zero.
pub(super) fn close_up(
    state: &mut State,
    store: &mut [Reading],
    line: usize,
    goes: impl Fn(&Reading) -> bool,
) {
    let before = state.heads[line].kept as usize;
    let share = &mut store[line * SHARE..line * SHARE + before];
    let mut after = 0;
    for place in 0..before {
        if !goes(&share[place]) {
            share[after] = share[place];
            after += 1;
        }
    }
    share[after..].fill(Reading::ZERO);
    state.heads[line].kept = after as u32;
}
