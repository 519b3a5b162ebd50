//! Send-back stores in antt's writing: all that is lent, and of what is left the places that matter.

use super::literal::{bytes, packed};
use super::question::{HostQuestion, Left};
use crate::node::{place_of, HELD, SENT_BYTES};
use crate::record::RECORD_BYTES;

/// The places of a store packed into one number; those that a short store lacks are zero.
pub(super) fn places(sent: &[u8]) -> String {
    packed_bytes(&sent[..sent.len().min(SENT_BYTES)])
}

fn packed_bytes(bytes: &[u8]) -> String {
    let elements: Vec<u128> = bytes.iter().map(|&byte| u128::from(byte)).collect();
    packed(&elements, 2)
}

pub(super) fn is_short(sent: &[u8]) -> bool {
    sent.len() < SENT_BYTES
}

/// What lies behind the places.
pub(super) fn behind(sent: &[u8]) -> String {
    bytes(sent.get(SENT_BYTES..).unwrap_or(&[]))
}

/// The bytes of a place, as far as they are there.
fn piece(sent: &[u8], place: usize) -> &[u8] {
    let start = (place * RECORD_BYTES).min(sent.len());
    &sent[start..(start + RECORD_BYTES).min(sent.len())]
}

/// The places that are asked for, at most so many of those that differ: these, the ones beside them,
/// the first and the last place, that of a display's id, and one more.
fn asked(number: usize, question: &HostQuestion, left: &Left, most: usize) -> Vec<usize> {
    let (before, after) = (&question.loan.sent, &left.loan.sent);
    let differs = |place: &usize| piece(before, *place) != piece(after, *place);
    let changed: Vec<usize> = (0..HELD).filter(differs).collect();
    let every = changed.len().div_ceil(most).max(1);
    let mut asked = vec![0, HELD - 1, (number * 37 + 5) % HELD];
    asked.extend(changed.iter().step_by(every));
    asked.extend(changed.last());
    let beside = changed
        .iter()
        .flat_map(|&place| [(place + 1) % HELD, (place + HELD - 1) % HELD]);
    asked.extend(beside.filter(|place| !differs(place)));
    if let Some(call) = question.display.filter(|call| call.id > 0) {
        asked.push(place_of(call.id).start / RECORD_BYTES);
    }
    asked.sort_unstable();
    asked.dedup();
    asked
}

/// The places that are asked for, with their bytes as they should be.
pub(super) fn due(number: usize, question: &HostQuestion, left: &Left, most: usize) -> String {
    let mut text = String::new();
    for place in asked(number, question, left, most) {
        let piece = piece(&left.loan.sent, place);
        text.push_str(&format!(
            "place_due {place} {} {} ∷ ",
            piece.len(),
            packed_bytes(piece)
        ));
    }
    text + "[]"
}
