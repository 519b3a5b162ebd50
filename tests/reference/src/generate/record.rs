//! Records of any numbers, and bytes that are one or nearly so.

use super::random::Random;
use crate::record::{encode, Record, RECORD_BYTES};

/// A record, one with a fault, or any bytes.
pub fn any_record_bytes(random: &mut Random) -> Vec<u8> {
    let mut bytes = encode(&any_record(random)).to_vec();
    let place = random.below(RECORD_BYTES as u64) as usize;
    match random.below(12) {
        0 => bytes[0] = random.bits() as u8,
        1 => bytes[random.pick(&[2, 3])] = random.bits() as u8,
        2 => bytes[place] ^= 1 << random.below(8),
        3 => bytes.truncate(place),
        4 => bytes.extend(any_bytes(random, RECORD_BYTES as u64)),
        5 => bytes = any_bytes(random, 2 * RECORD_BYTES as u64),
        _ => {}
    }
    bytes
}

fn any_record(random: &mut Random) -> Record {
    let wide = random.bits() as i64 >> random.below(64);
    let mean = random.signed_word();
    Record {
        kind: random.pick(b"STUBR"),
        meter: random.word() as u8,
        id: random.word(),
        time: random.word(),
        count: random.word(),
        sum: random.pick(&[0, -1, i64::MIN, i64::MAX, wide, i64::from(mean)]),
        mean,
        last: random.signed_word(),
    }
}

/// Fewer bytes than the limit, any of them.
pub fn any_bytes(random: &mut Random, limit: u64) -> Vec<u8> {
    let length = random.below(limit);
    (0..length).map(|_| random.bits() as u8).collect()
}
