//! What heat balances are of when they are checked: a balance of nothing would show nothing.

use std::collections::BTreeMap;

use reference::monitor::{check_balance, Balance, Run};
use reference::node::{Meter, METERS, SHARE};
use reference::text::{Call, STABLE, TENTATIVE};

/// How often each thing was there, over all meters at all places where the balance was checked.
#[derive(Debug, Default)]
pub struct Balances {
    pub places: u32,
    pub seen: BTreeMap<&'static str, u32>,
    /// The parts and all that would upset the balance, of one meter.
    pub at_once: u32,
}

impl Balances {
    /// Checks the balance of every meter and notes what it is of; of the calls, those refused.
    pub fn check(&mut self, run: &Run, refused: &[Call]) {
        check_balance(run).unwrap();
        self.places += 1;
        for meter in 0..METERS as u8 {
            self.note(run, refused, meter);
        }
    }

    /// Notes the parts of a meter's balance, and what would upset it if it were counted.
    fn note(&mut self, run: &Run, refused: &[Call], meter: u8) {
        let balance = Balance::of(run, meter);
        let parts = [
            ("paid", balance.paid.count > 0),
            ("open", balance.open.count > 0),
            ("kept", balance.kept.count > 0),
        ];
        let upsetting = [
            ("operator ahead", is_ahead(run, meter)),
            ("tentative kept", keeps_tentative(run, meter)),
            ("refused", has(run, refused, meter, true)),
        ];
        let all = |things: &[(&str, bool)]| things.iter().all(|&(_, there)| there);
        let others = [
            ("all parts", all(&parts)),
            ("all upsetting", all(&upsetting)),
            ("outside", has(run, &run.watch.stable, meter, false)),
            ("tentative result", has_tentative_result(run, meter)),
        ];
        self.at_once += u32::from(all(&parts) && all(&upsetting));
        for (what, there) in [&parts[..], &upsetting, &others].concat() {
            *self.seen.entry(what).or_insert(0) += u32::from(there);
        }
    }

    /// Whether everything was there more often than so.
    pub fn are_of_all(&self, times: u32) -> bool {
        self.seen.len() == 10 && self.seen.values().all(|&seen| seen > times)
    }
}

fn is_inside(run: &Run, value: i32) -> bool {
    (run.state.settings.low..=run.state.settings.high).contains(&value)
}

/// Whether the operator holds another count or sum of a meter than the checkpoint.
fn is_ahead(run: &Run, meter: u8) -> bool {
    let held = |meters: &[Meter; METERS]| {
        let meter = meters[usize::from(meter)];
        (meter.count, meter.sum)
    };
    held(&run.state.operator.meters) != held(&run.state.checkpoint.meters)
}

/// Whether a tentative reading of a meter with a value inside low to high is kept.
fn keeps_tentative(run: &Run, meter: u8) -> bool {
    (0..run.state.settings.lines as usize).any(|line| {
        let start = line * SHARE;
        let kept = &run.lent.store[start..start + run.state.heads[line].kept as usize];
        kept.iter().any(|reading| {
            reading.kind == TENTATIVE && reading.meter == meter && is_inside(run, reading.value)
        })
    })
}

/// Whether some calls hand over a stable reading of a meter with a value inside low to high, or
/// outside.
fn has(run: &Run, calls: &[Call], meter: u8, inside: bool) -> bool {
    calls.iter().any(|call| {
        call.kind == STABLE && call.meter == meter && is_inside(run, call.value) == inside
    })
}

/// Whether a tentative result of a meter has come, be it withdrawn or not.
fn has_tentative_result(run: &Run, meter: u8) -> bool {
    let mut records = run.watch.output.records().iter();
    records.any(|record| record.kind == TENTATIVE && record.meter == meter)
}
