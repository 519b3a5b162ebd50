//! Refusal 4: whether a state and stores long enough for it are in shape.

use super::operator::{Meter, Operator, METERS};
use super::sent::sent_in_shape;
use super::state::{State, Word};
use super::store::{kept, Reading, SHARE};
use super::Lent;
use crate::text::{STABLE, TENTATIVE};

/// The greatest number that c and p can have.
pub const GREATEST_BUCKET: u32 = 42_949_673;
/// The greatest count of a meter in shape.
const GREATEST_COUNT: u32 = 32_768;

/// Whether refusal 4 does not fit; neither store is short.
pub fn in_shape(state: &State, lent: &Lent) -> bool {
    state.settings.within_limits()
        && heads_in_shape(state)
        && kept_in_shape(state, &lent.store)
        && buckets_in_shape(state)
        && numbering_in_shape(state)
        && meters_in_shape(&state.operator)
        && meters_in_shape(&state.checkpoint)
        && sent_in_shape(state, &lent.sent)
}

fn heads_in_shape(state: &State) -> bool {
    state
        .lines()
        .iter()
        .all(|head| head.kept as usize <= SHARE && head.last_stable_id <= head.last_id)
}

fn kept_in_shape(state: &State, store: &[Reading]) -> bool {
    (0..state.lines().len()).all(|line| share_in_shape(kept(state, store, line)))
}

/// Whether a share's readings are S or T, of known meters, each id above the one before it. The
/// whole share is looked at, without an early end: that is the quicker way where all is well.
fn share_in_shape(readings: &[Reading]) -> bool {
    let sound = readings.iter().fold(true, |sound, reading| {
        let is_reading = (reading.kind == STABLE) | (reading.kind == TENTATIVE);
        sound & is_reading & (usize::from(reading.meter) < METERS)
    });
    let pairs = readings.windows(2);
    sound & pairs.fold(true, |rise, pair| rise & (pair[0].id < pair[1].id))
}

fn buckets_in_shape(state: &State) -> bool {
    let ordered = state.c <= state.p && state.p <= GREATEST_BUCKET;
    let ahead = state.p > state.c;
    ordered && ahead == (state.word == Word::Failure)
}

fn numbering_in_shape(state: &State) -> bool {
    let most = METERS as u64;
    let (stable, newest) = (state.checkpoint.newest, state.operator.newest);
    stable <= most * u64::from(state.c)
        && newest <= most * u64::from(state.p)
        && newest >= stable
        && (state.p > state.c || newest <= stable)
}

fn meters_in_shape(operator: &Operator) -> bool {
    operator.meters.iter().all(meter_in_shape)
}

/// Whether the count is within its limit, and the sum one of so many values of 32 bits: not further
/// above the least such sum than the greatest is. A sum below the least wraps to a large number.
fn meter_in_shape(meter: &Meter) -> bool {
    let count = u64::from(meter.count);
    let above_least = (meter.sum as u64).wrapping_add(count << 31);
    meter.count <= GREATEST_COUNT && above_least <= count * u64::from(u32::MAX)
}
