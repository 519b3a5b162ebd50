//! Parts of heat balances to compute: what is open and kept of some meters in host-made states and
//! stores, and what lists of records pay.

use super::columns::Columns;
use super::tally::Tally;
use crate::generate::{any_record_bytes, host_state, Host, Random};
use crate::monitor::{kept_heat, open_heat, paid_heat, Heat};
use crate::node::{METERS, SHARE};
use crate::record::{decode, Record};
use crate::text::STABLE;

/// The meters that are asked of one state and store, or of one list of records.
const ASKED: usize = 3;
/// The most records of a list.
const RECORDS: u64 = 6;

/// A meter with what it has.
pub(super) type MeterHeat = (u8, Heat);

/// What is open and what is kept of some meters.
pub(super) struct BoxQuestion {
    pub(super) host: Host,
    pub(super) columns: Columns,
    pub(super) open: Vec<MeterHeat>,
    pub(super) kept: Vec<MeterHeat>,
}

/// What some stretches of bytes pay some meters; those that are no records pay nothing.
pub(super) struct PaidQuestion {
    pub(super) records: Vec<Vec<u8>>,
    pub(super) paid: Vec<MeterHeat>,
}

/// Host-made states and stores in shape, so many of them.
pub(super) fn boxes(random: &mut Random, cases: usize, tally: &mut Tally) -> Vec<BoxQuestion> {
    let mut questions = Vec::new();
    while questions.len() < cases {
        let host = host_state(random);
        if host.lent.store.len() > 3 * SHARE && !random.once_in(8) {
            continue;
        }
        let question = BoxQuestion::ask(random, host);
        for ((_, open), (_, kept)) in question.open.iter().zip(&question.kept) {
            tally.note(match (open.count, kept.count) {
                (0, 0) => "neither",
                (_, 0) => "open",
                (0, _) => "kept",
                _ => "open and kept",
            });
        }
        questions.push(question);
    }
    questions
}

impl BoxQuestion {
    fn ask(random: &mut Random, host: Host) -> Self {
        let mut columns = Columns::of_store(&host.lent.store);
        if random.once_in(4) {
            columns.lengthen(random);
        }
        let meters: Vec<u8> = (0..ASKED).map(|_| some_meter(random, &host)).collect();
        let open = |&meter: &u8| (meter, open_heat(&host.state, meter));
        let kept = |&meter: &u8| (meter, kept_heat(&host.state, &host.lent.store, meter));
        BoxQuestion {
            open: meters.iter().map(open).collect(),
            kept: meters.iter().map(kept).collect(),
            host,
            columns,
        }
    }
}

/// The meter of some place in the store, one that the checkpoint holds something of, or any.
fn some_meter(random: &mut Random, host: &Host) -> u8 {
    let place = random.below(host.lent.store.len() as u64) as usize;
    let any = random.bits() as u8 % METERS as u8;
    let mut others = (any..METERS as u8).chain(0..any);
    let held = others.find(|&meter| open_heat(&host.state, meter).count > 0);
    let read = host.lent.store[place].meter % METERS as u8;
    random.pick(&[read, read, held.unwrap_or(any), any])
}

/// Lists of records and of bytes that are none, so many of them.
pub(super) fn payments(random: &mut Random, cases: usize, tally: &mut Tally) -> Vec<PaidQuestion> {
    let mut questions = Vec::new();
    for _ in 0..cases {
        let length = random.below(RECORDS + 1);
        let records: Vec<Vec<u8>> = (0..length).map(|_| some_record(random)).collect();
        let read: Vec<Record> = records
            .iter()
            .filter_map(|bytes| decode(bytes).ok())
            .collect();
        let other = read
            .first()
            .map_or(random.bits() as u8, |first| first.meter);
        let meters = (0..ASKED as u8).chain([other]);
        let paid: Vec<MeterHeat> = meters
            .map(|meter| (meter, paid_heat(&read, meter)))
            .collect();
        for (_, heat) in &paid {
            tally.note(if *heat == Heat::NONE {
                "nothing"
            } else {
                "something"
            });
        }
        questions.push(PaidQuestion { records, paid });
    }
    questions
}

/// A record's bytes, often those of a stable result of one of the meters asked, or bytes that are
/// no record.
fn some_record(random: &mut Random) -> Vec<u8> {
    let mut bytes = any_record_bytes(random);
    if let [kind, meter, ..] = &mut bytes[..] {
        if !random.once_in(4) {
            *kind = STABLE;
        }
        if !random.once_in(4) {
            *meter = random.below(ASKED as u64) as u8;
        }
    }
    bytes
}

#[cfg(test)]
mod tests {
    use super::*;

    /// Few questions have every sort, so that no part is asked only where it is nothing.
    #[test]
    fn every_sort_is_asked() {
        for seed in 0..20 {
            let (mut random, mut tally) = (Random::new(seed), Tally::default());
            let boxes = boxes(&mut random, 20, &mut tally);
            let meters = boxes
                .iter()
                .flat_map(|asked| asked.open.iter().zip(&asked.kept));
            let sorts: Vec<(bool, bool)> = meters
                .map(|((_, open), (_, kept))| (open.count > 0, kept.count > 0))
                .collect();
            for sort in [(false, false), (false, true), (true, false), (true, true)] {
                assert!(sorts.contains(&sort), "{sort:?} never, {tally}");
            }
            let payments = payments(&mut random, 20, &mut tally);
            let mut paid = payments.iter().flat_map(|asked| &asked.paid);
            assert!(paid.any(|(_, heat)| heat.count > 0 && heat.sum != 0));
        }
    }
}
