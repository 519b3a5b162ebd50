//! Steps to count: host-made states in shape, each with the steps that it takes here until every
//! stable bucket is worked and the box is not correcting.

use super::tally::Tally;
use crate::generate::{near_host_state, Host, Random};
use crate::monitor::{is_settled, left_in};
use crate::node::Word;

/// States and stores with their counts, so many of them.
pub(super) fn counts(random: &mut Random, cases: usize, tally: &mut Tally) -> Vec<(Host, u32)> {
    let mut counted = Vec::new();
    while counted.len() < cases {
        let host = near_host_state(random);
        let Some(steps) = count(&host) else {
            continue;
        };
        tally.note(match (host.state.word, left_in(&host.state)) {
            (Word::Stable, 0) => "stable, none left",
            (Word::Stable, _) => "stable",
            (Word::Failure, 0) => "failure, none left",
            (Word::Failure, _) => "failure",
            (Word::Correcting, 0) => "correcting, none left",
            (Word::Correcting, _) => "correcting",
        });
        counted.push((host, steps));
    }
    counted
}

/// The steps, counted one by one; none where one of them is refused.
fn count(host: &Host) -> Option<u32> {
    let mut host = host.clone();
    let mut steps = 0;
    while !is_settled(&host.state, left_in(&host.state)) {
        if host.step() != 0 {
            return None;
        }
        steps += 1;
    }
    Some(steps)
}
