//! Replicas: two boxes that took the same stable input must have given the same results.

use super::watch::Watch;
use crate::text::Call;

/// Whether demand 3 ties two boxes: same settings, same stable input, same boundaries.
pub fn are_replicas(one: &Watch, other: &Watch) -> bool {
    one.settings == other.settings
        && one.monitor.boundaries() == other.monitor.boundaries()
        && (1..=one.settings.lines).all(|line| of_line(one, line) == of_line(other, line))
}

/// The second part of demand 3; false where it does not speak of these two boxes.
pub fn check_replicas(one: &Watch, other: &Watch) -> Result<bool, String> {
    if one.monitor.left() > 0 || other.monitor.left() > 0 || !are_replicas(one, other) {
        return Ok(false);
    }
    if one.output.stable()? != other.output.stable()? {
        return Err("two replicas with different stable results".into());
    }
    Ok(true)
}

/// A line's accepted stable readings in order, all fields but the arrival.
fn of_line(watch: &Watch, line: u32) -> Vec<Call> {
    let own = watch.stable.iter().filter(|c| u32::from(c.line) == line);
    own.map(|call| Call { now: 0, ..*call }).collect()
}
