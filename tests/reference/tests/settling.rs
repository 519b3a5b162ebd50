//! Exactly as many steps (document 02, W4): the stored journal that counts them, and host-made
//! states. Demand 3's journals are counted in tests/demand.rs.

use std::collections::BTreeMap;

use reference::generate::{near_host_state, Random};
use reference::monitor::{is_settled, left_in, steps_from, Run};
use reference::text::{next_line, read_call, STEP};

const JOURNAL: &[u8] = include_bytes!("../../journals/steps-to-settle.journal");

/// Its passages: state, stable buckets left, and how many tentative results are out.
const PASSAGES: [(&str, u32, u64); 10] = [
    ("stable", 0, 0),
    ("stable", 1, 0),
    ("stable", 3, 0),
    ("failure", 0, 1),
    ("failure", 1, 1),
    ("failure", 3, 3),
    ("failure", 1, 0),
    ("correcting", 0, 0),
    ("correcting", 1, 0),
    ("correcting", 3, 0),
];

/// A passage's heading, a line that is refused with 6: buckets left, state, steps needed.
fn heading(text: &[u8]) -> Option<(u32, &str, u32)> {
    let text = std::str::from_utf8(text).unwrap();
    let (left, rest) = text.strip_prefix("k=")?.split_once(" state=")?;
    let (word, steps) = rest.trim_end().split_once(" steps=")?;
    Some((left.parse().unwrap(), word, steps.parse().unwrap()))
}

/// Each passage goes from its heading through one step more than it needs; whatever else is
/// accepted stands before the next heading.
#[test]
fn stored_journal_counts_what_it_says() {
    let settings = next_line(JOURNAL);
    let mut rest = &JOURNAL[settings.len()..];
    let mut run = Run::open(settings).unwrap();
    let mut passages = Vec::new();
    let mut counting = None;
    while !rest.is_empty() {
        let text = next_line(rest);
        rest = &rest[text.len()..];
        if let Some((left, word, steps)) = heading(text) {
            let (state, monitor) = (&run.state, &run.watch.monitor);
            assert_eq!((monitor.left(), state.word.name()), (left, word));
            assert_eq!((left_in(state), steps_from(state, left)), (left, steps));
            assert_eq!(is_settled(state, left), steps == 0);
            let out = state.operator.newest - state.checkpoint.newest;
            counting = Some(((word, left, out), 0, steps));
        }
        let answer = run.feed(text).unwrap();
        let is_step = read_call(text).is_some_and(|call| call.kind == STEP);
        if answer != 0 {
            continue;
        }
        counting = counting.filter(|_| is_step);
        if let Some((passage, taken, steps)) = &mut counting {
            *taken += 1;
            let settled = is_settled(&run.state, run.watch.monitor.left());
            assert_eq!(settled, taken >= steps, "{taken} of {steps}");
            if taken > steps {
                passages.push(*passage);
                counting = None;
            }
        }
    }
    assert_eq!(passages, PASSAGES);
}

/// From any state in shape, k being its own, as long as no step is refused; a step may leave more
/// counted on a meter than a state in shape has, and 4 then ends it, or want more places than are
/// free, and 15 does.
#[test]
fn host_made_states_need_as_many_steps() {
    let mut random = Random::new(4);
    let mut counted = BTreeMap::new();
    for _ in 0..20_000 {
        let mut host = near_host_state(&mut random);
        let left = left_in(&host.state);
        let needed = steps_from(&host.state, left);
        let from = (host.state.word.name(), left.min(2));
        let mut answer = 0;
        for taken in 0..=needed + 1 {
            let settled = is_settled(&host.state, left_in(&host.state));
            assert_eq!(settled, taken >= needed, "{taken} of {needed}, {from:?}");
            answer = host.step();
            if answer != 0 {
                let due = answer == 15 || (answer == 4 && taken > 0);
                assert!(due, "{answer} after {taken}");
                break;
            }
        }
        *counted.entry((from, answer)).or_insert(0) += 1;
    }
    let to_the_end = counted.iter().filter(|((_, answer), _)| *answer == 0);
    let times: Vec<i32> = to_the_end.map(|(_, &times)| times).collect();
    assert_eq!(times.len(), 9, "{counted:?}");
    assert!(times.iter().all(|&times| times > 200), "{counted:?}");
    let waiting = counted.iter().filter(|((_, answer), _)| *answer == 15);
    let waiting: i32 = waiting.map(|(_, &times)| times).sum();
    assert!(waiting > 200, "{counted:?}");
}
