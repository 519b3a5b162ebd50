//! How many steps it takes until every stable bucket is worked and the box is not correcting, with
//! no input between and none refused (document 02, W4).

use crate::node::{State, Word};

/// With so many stable buckets left to work, by whether tentative work is out and whether the box
/// is correcting.
pub fn steps_needed(left: u32, out: bool, correcting: bool) -> u32 {
    if left == 0 {
        return u32::from(correcting);
    }
    let withdrawing = if out { 2 } else { 0 };
    left + withdrawing + u32::from(correcting)
}

/// The steps that a box in this state needs, with so many stable buckets left.
pub fn steps_from(state: &State, left: u32) -> u32 {
    steps_needed(left, state.p > state.c, state.word == Word::Correcting)
}

/// The stable buckets that a state itself has left to work; call only with settings within their
/// limits.
pub fn left_in(state: &State) -> u32 {
    let boundaries = state.lines().iter().map(|head| head.boundary);
    let least = boundaries.min().unwrap_or(0);
    (least / state.settings.bucket).saturating_sub(state.c)
}

/// Whether no stable bucket is left and the box is not correcting.
pub fn is_settled(state: &State, left: u32) -> bool {
    left == 0 && state.word != Word::Correcting
}

#[cfg(test)]
mod tests {
    use super::*;

    /// Document 02's cases, for none, one and three buckets left.
    #[test]
    fn counts_of_document_02() {
        let counts = |out, correcting| [0, 1, 3].map(|left| steps_needed(left, out, correcting));
        assert_eq!(counts(false, false), [0, 1, 3]);
        assert_eq!(counts(true, false), [0, 3, 5]);
        assert_eq!(counts(false, true), [1, 2, 4]);
    }
}
