//! Means to compute: sums of few and of many values, at their limits and at halves.

use super::tally::Tally;
use crate::generate::{some_sum, Random};
use crate::node::is_half;

/// Sums with their counts, so many of them.
pub(super) fn means(random: &mut Random, cases: usize, tally: &mut Tally) -> Vec<(i64, u32)> {
    let case = |_| {
        let any = random.word();
        let count = random.pick(&[0, 1, 2, 3, 4, 5, 6, 32_767, 32_768, 34_816, any]);
        (some_sum(random, count), count)
    };
    let sums: Vec<(i64, u32)> = (0..cases).map(case).collect();
    for &(sum, count) in &sums {
        tally.note(match (count, is_half(sum, count)) {
            (0, _) => "of none",
            (_, true) => "half",
            (_, false) => "not half",
        });
    }
    sums
}
