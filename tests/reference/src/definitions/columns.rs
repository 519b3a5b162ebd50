//! A store as six columns, which need not be equally long.

use super::literal::{bytes, signed_words, words};
use crate::generate::Random;
use crate::node::{store_length, Reading};

/// One column for each field of a reading.
#[derive(Clone, Debug, PartialEq, Eq)]
pub(super) struct Columns {
    pub(super) ids: Vec<u32>,
    pub(super) times: Vec<u32>,
    pub(super) values: Vec<i32>,
    pub(super) arrivals: Vec<u32>,
    pub(super) kinds: Vec<u8>,
    pub(super) meters: Vec<u8>,
}

impl Columns {
    pub(super) fn of_store(store: &[Reading]) -> Self {
        Columns {
            ids: store.iter().map(|reading| reading.id).collect(),
            times: store.iter().map(|reading| reading.time).collect(),
            values: store.iter().map(|reading| reading.value).collect(),
            arrivals: store.iter().map(|reading| reading.arrival).collect(),
            kinds: store.iter().map(|reading| reading.kind).collect(),
            meters: store.iter().map(|reading| reading.meter).collect(),
        }
    }

    /// The store's length: that of the shortest column.
    pub(super) fn length(&self) -> usize {
        store_length([
            self.ids.len(),
            self.times.len(),
            self.values.len(),
            self.arrivals.len(),
            self.kinds.len(),
            self.meters.len(),
        ])
    }

    /// Makes the columns a little longer, each by a length of its own.
    pub(super) fn lengthen(&mut self, random: &mut Random) {
        let mut extra = || random.below(4) as usize;
        let (some, other) = (0xDEAD_BEEF, 77);
        self.ids.resize(self.ids.len() + extra(), some);
        self.times.resize(self.times.len() + extra(), some);
        self.values.resize(self.values.len() + extra(), -5);
        self.arrivals.resize(self.arrivals.len() + extra(), some);
        self.kinds.resize(self.kinds.len() + extra(), other);
        self.meters.resize(self.meters.len() + extra(), other);
    }

    /// Cuts one column to this length.
    pub(super) fn cut_one(&mut self, random: &mut Random, length: usize) {
        match random.below(6) {
            0 => self.ids.truncate(length),
            1 => self.times.truncate(length),
            2 => self.values.truncate(length),
            3 => self.arrivals.truncate(length),
            4 => self.kinds.truncate(length),
            _ => self.meters.truncate(length),
        }
    }

    /// The columns with this store in front, and what is behind it as it was.
    pub(super) fn with_store(&self, store: &[Reading]) -> Self {
        let front = Columns::of_store(store);
        let mut columns = self.clone();
        columns.ids[..store.len()].copy_from_slice(&front.ids);
        columns.times[..store.len()].copy_from_slice(&front.times);
        columns.values[..store.len()].copy_from_slice(&front.values);
        columns.arrivals[..store.len()].copy_from_slice(&front.arrivals);
        columns.kinds[..store.len()].copy_from_slice(&front.kinds);
        columns.meters[..store.len()].copy_from_slice(&front.meters);
        columns
    }

    pub(super) fn literal(&self) -> String {
        format!(
            "record {{ ids = {}; times = {}; values = {}; arrivals = {}; kinds = {}; meters = {} }}",
            words(&self.ids),
            words(&self.times),
            signed_words(&self.values),
            words(&self.arrivals),
            bytes(&self.kinds),
            bytes(&self.meters),
        )
    }
}
