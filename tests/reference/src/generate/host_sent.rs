//! A host-made send-back store in shape, with junk wherever refusal 4 does not look.

use super::random::Random;
use crate::node::{held, place_of, State, DISPLAYS, HELD, SENT_BYTES};
use crate::text::STABLE;

/// Sets what each display has acknowledged, in a state that is otherwise in shape, and makes a
/// send-back store for it.
pub(super) fn fill_sent(random: &mut Random, state: &mut State) -> Vec<u8> {
    let behind = some_pace(random);
    for display in 0..DISPLAYS {
        state.acknowledged[display] = if display < state.settings.displays as usize {
            let newest = state.newest_stable();
            newest - some_distance(random, behind).min(newest)
        } else {
            junk_id(random)
        };
    }
    let length = SENT_BYTES + random.pick(&[0, 0, 1, 31, 32, 200]);
    let junk = random.once_in(2);
    let mut sent: Vec<u8> = (0..length)
        .map(|_| if junk { random.bits() as u8 } else { 0 })
        .collect();
    for id in held(state) {
        let place = &mut sent[place_of(id)];
        place[0] = STABLE;
        place[4..8].copy_from_slice(&(id as u32).to_le_bytes());
    }
    sent
}

/// How far all displays are behind at least: so that none or few places are free, or many.
fn some_pace(random: &mut Random) -> u64 {
    let few = random.below(70);
    let most = HELD as u64;
    random.pick(&[0, 0, most, most - 1, most - few, most - few, few])
}

/// How many results one display is behind, often as many as all are at least.
fn some_distance(random: &mut Random, behind: u64) -> u64 {
    let most = HELD as u64;
    let any = behind + random.below(most - behind + 1);
    random.pick(&[behind, behind, behind, most, any])
}

fn junk_id(random: &mut Random) -> u64 {
    let any = random.bits();
    random.pick(&[0, 1, any, u64::MAX])
}
