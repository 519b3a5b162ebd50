//! The failure-free run over accepted stable readings, worked with code of its own.

use std::collections::BTreeMap;

use crate::record::{encode, Record, RECORD_BYTES};
use crate::text::{Call, Settings};

/// The results, byte for byte, of working buckets 0 to d - 1, each once and without failure.
pub fn failure_free(settings: &Settings, stable: &[Call], d: u32) -> Vec<[u8; RECORD_BYTES]> {
    let mut ordered = stable.to_vec();
    ordered.sort_by_key(|call| (call.time, call.line, call.id));
    let mut results = Vec::new();
    let mut values: BTreeMap<u8, Vec<i32>> = BTreeMap::new();
    let mut rest = &ordered[..];
    for bucket in 0..d {
        while let Some((first, behind)) = rest.split_first() {
            if first.time / settings.bucket > bucket {
                break;
            }
            rest = behind;
            if (settings.low..=settings.high).contains(&first.value) {
                values.entry(first.meter).or_default().push(first.value);
            }
        }
        if (bucket + 1).is_multiple_of(settings.window) {
            let time = (bucket + 1 - settings.window) * settings.bucket;
            for (meter, values) in std::mem::take(&mut values) {
                let id = results.len() as u32 + 1;
                results.push(encode(&result(id, time, meter, &values)));
            }
        }
    }
    results
}

/// The stable result of one meter with these values in order.
fn result(id: u32, time: u32, meter: u8, values: &[i32]) -> Record {
    let sum: i64 = values.iter().map(|&value| i64::from(value)).sum();
    Record {
        kind: b'S',
        meter,
        id,
        time,
        count: values.len() as u32,
        sum,
        mean: nearest(sum, values.len() as i64),
        last: *values.last().expect("a meter with a value"),
    }
}

/// The whole nearest to sum over count; of two equally near, the even one.
fn nearest(sum: i64, count: i64) -> i32 {
    let below = sum.div_euclid(count);
    let beyond = 2 * sum.rem_euclid(count) - count;
    let up = beyond > 0 || (beyond == 0 && below.rem_euclid(2) == 1);
    i32::try_from(below + i64::from(up)).expect("a mean of 32-bit values")
}
