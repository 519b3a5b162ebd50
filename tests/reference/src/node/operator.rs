//! The operator's meters, the closing of a window, and the numbering of results.

use std::cmp::Ordering;

use crate::record::Record;

/// The meters of a box.
pub const METERS: usize = 64;

/// What the operator holds of one meter.
#[derive(Clone, Copy, Debug, Default, PartialEq, Eq)]
pub struct Meter {
    pub count: u32,
    pub sum: i64,
    pub last: i32,
}

/// The operator at some bucket, with the id of the newest result given so far.
#[derive(Clone, Debug, PartialEq, Eq)]
pub struct Operator {
    pub meters: [Meter; METERS],
    pub newest: u64,
}

impl Operator {
    /// The operator at the opening.
    pub const CLEAR: Operator = Operator {
        meters: [Meter {
            count: 0,
            sum: 0,
            last: 0,
        }; METERS],
        newest: 0,
    };

    /// Closes a window: hands each result on as a record, meters rising, and clears the meters.
    pub(super) fn close(&mut self, kind: u8, time: u32, mut put: impl FnMut(&Record)) {
        for (number, meter) in self.meters.iter().enumerate() {
            if meter.count == 0 {
                continue;
            }
            self.newest += 1;
            put(&Record {
                kind,
                meter: number as u8,
                id: u32::try_from(self.newest).expect("result ids in shape fit 32 bits"),
                time,
                count: meter.count,
                sum: meter.sum,
                mean: i32::try_from(mean(meter.sum, meter.count)).expect("sums in shape"),
                last: meter.last,
            });
        }
        self.meters = Operator::CLEAR.meters;
    }
}

/// The mean as a whole number, the even one of two equally close; 0 without a count.
pub fn mean(sum: i64, count: u32) -> i64 {
    if count == 0 {
        return 0;
    }
    let (magnitude, count) = (sum.unsigned_abs(), u64::from(count));
    let (whole, rest) = (magnitude / count, magnitude % count);
    let up = match (2 * rest).cmp(&count) {
        Ordering::Less => false,
        Ordering::Equal => whole % 2 == 1,
        Ordering::Greater => true,
    };
    let nearest = i128::from(whole) + i128::from(up);
    (if sum < 0 { -nearest } else { nearest }) as i64
}

/// Whether a sum over a count lies exactly between two whole numbers.
pub fn is_half(sum: i64, count: u32) -> bool {
    let count = u64::from(count);
    count > 0 && 2 * (sum.unsigned_abs() % count) == count
}
