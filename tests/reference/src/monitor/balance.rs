//! The heat balance (document 02, W11): meter by meter, what was sent in is what was paid, what the
//! window open at the checkpoint holds, and what is still kept.

use std::fmt;
use std::ops::Add;

use super::run::Run;
use crate::node::{Reading, State, METERS, SHARE};
use crate::record::Record;
use crate::text::{Call, Settings, STABLE};

/// How much: the number of readings, and the sum of their values.
#[derive(Clone, Copy, Debug, Default, PartialEq, Eq)]
pub struct Heat {
    pub count: u64,
    pub sum: i128,
}

impl Heat {
    pub const NONE: Heat = Heat { count: 0, sum: 0 };

    fn of_value(value: i32) -> Self {
        Heat {
            count: 1,
            sum: i128::from(value),
        }
    }

    fn of_total(count: u32, sum: i64) -> Self {
        Heat {
            count: u64::from(count),
            sum: i128::from(sum),
        }
    }
}

impl Add for Heat {
    type Output = Heat;

    fn add(self, other: Heat) -> Heat {
        Heat {
            count: self.count + other.count,
            sum: self.sum + other.sum,
        }
    }
}

impl std::iter::Sum for Heat {
    fn sum<I: Iterator<Item = Heat>>(heats: I) -> Heat {
        heats.fold(Heat::NONE, Heat::add)
    }
}

impl fmt::Display for Heat {
    fn fmt(&self, out: &mut fmt::Formatter) -> fmt::Result {
        write!(out, "{} {}", self.count, self.sum)
    }
}

/// The parts of one meter's balance.
#[derive(Clone, Copy, Debug, PartialEq, Eq)]
pub struct Balance {
    pub sent: Heat,
    pub paid: Heat,
    pub open: Heat,
    pub kept: Heat,
}

impl Balance {
    /// The balance of a meter of a box under watch.
    pub fn of(run: &Run, meter: u8) -> Self {
        let (watch, state) = (&run.watch, &run.state);
        Balance {
            sent: sent_heat(&watch.settings, &watch.stable, meter),
            paid: paid_heat(watch.output.records(), meter),
            open: open_heat(state, meter),
            kept: kept_heat(state, &run.lent.store, meter),
        }
    }

    pub fn holds(&self) -> bool {
        self.sent == self.paid + self.open + self.kept
    }

    /// Whether no part has anything.
    pub fn is_empty(&self) -> bool {
        let parts = [self.sent, self.paid, self.open, self.kept];
        parts.iter().all(|&part| part == Heat::NONE)
    }
}

impl fmt::Display for Balance {
    fn fmt(&self, out: &mut fmt::Formatter) -> fmt::Result {
        write!(out, "sent={} paid={} ", self.sent, self.paid)?;
        write!(out, "open={} kept={}", self.open, self.kept)
    }
}

/// Sent in: accepted stable readings of a meter with values inside low to high.
fn sent_heat(settings: &Settings, stable: &[Call], meter: u8) -> Heat {
    let own = stable
        .iter()
        .filter(|call| call.meter == meter && is_inside(settings, call.value));
    own.map(|call| Heat::of_value(call.value)).sum()
}

/// Paid: the stable results of a meter among records as they came; no undo is applied.
pub fn paid_heat(records: &[Record], meter: u8) -> Heat {
    let own = records
        .iter()
        .filter(|record| record.kind == STABLE && record.meter == meter);
    own.map(|record| Heat::of_total(record.count, record.sum))
        .sum()
}

/// Open: what the checkpoint holds of a meter, whatever tentative work has added since.
pub fn open_heat(state: &State, meter: u8) -> Heat {
    let held = state.checkpoint.meters[usize::from(meter)];
    Heat::of_total(held.count, held.sum)
}

/// Kept: the stable readings of a meter with values inside low to high in the places that the heads
/// call kept; call only on a state and store in shape.
pub fn kept_heat(state: &State, store: &[Reading], meter: u8) -> Heat {
    let shares = store.chunks(SHARE).zip(state.lines());
    let places = shares.flat_map(|(share, head)| &share[..head.kept as usize]);
    let own = places.filter(|reading| {
        reading.kind == STABLE
            && reading.meter == meter
            && is_inside(&state.settings, reading.value)
    });
    own.map(|reading| Heat::of_value(reading.value)).sum()
}

fn is_inside(settings: &Settings, value: i32) -> bool {
    settings.low <= value && value <= settings.high
}

/// The heat balance of every meter.
pub fn check_balance(run: &Run) -> Result<(), String> {
    for meter in 0..METERS as u8 {
        let balance = Balance::of(run, meter);
        if !balance.holds() {
            return Err(format!("no balance: meter={meter} {balance}"));
        }
    }
    Ok(())
}

/// A line for each meter of which any part has something, meters rising.
pub fn balance_text(run: &Run) -> String {
    let mut text = String::new();
    for meter in 0..METERS as u8 {
        let balance = Balance::of(run, meter);
        if !balance.is_empty() {
            text += &format!("meter={meter} {balance}\n");
        }
    }
    text
}

#[cfg(test)]
mod tests {
    use super::*;

    const SETTINGS: &str = "lines=1 bucket=100 window=2 hold=0 low=-5 high=9 displays=1\n";
    const CALLS: [&str; 9] = [
        "now=0 line=1 kind=S id=1 time=0 meter=63 value=9\n",
        "now=0 line=1 kind=S id=2 time=0 meter=63 value=10\n",
        "now=0 line=1 kind=S id=4 time=0 meter=63 value=1\n",
        "now=0 line=1 kind=S id=3 time=200 meter=63 value=-5\n",
        "now=0 line=1 kind=S id=4 time=300 meter=63 value=4\n",
        "now=0 line=1 kind=B id=0 time=300 meter=0 value=0\n",
        "now=0 line=1 kind=T id=5 time=300 meter=63 value=2\n",
        "now=0 line=0 kind=P id=0 time=0 meter=0 value=0\n",
        "now=0 line=0 kind=P id=0 time=0 meter=0 value=0\n",
    ];

    fn heat(count: u64, sum: i128) -> Heat {
        Heat { count, sum }
    }

    fn played() -> Run {
        Run::play(&[SETTINGS, &CALLS.concat()].concat().into_bytes()).unwrap()
    }

    #[test]
    fn parts_by_hand() {
        let mut run = played();
        let balance = Balance::of(&run, 63);
        assert_eq!((balance.sent, balance.paid), (heat(3, 8), heat(1, 9)));
        assert_eq!((balance.open, balance.kept), (heat(0, 0), heat(2, -1)));
        run.step(0).unwrap();
        run.step(0).unwrap();
        let balance = Balance::of(&run, 63);
        assert_eq!((balance.sent, balance.paid), (heat(3, 8), heat(1, 9)));
        assert_eq!((balance.open, balance.kept), (heat(1, -5), heat(1, 4)));
        check_balance(&run).unwrap();
        let line = "meter=63 sent=3 8 paid=1 9 open=1 -5 kept=1 4\n";
        assert_eq!(balance_text(&run), line);
    }

    /// Each part counts, and its count and its sum do.
    #[test]
    fn one_reading_off_is_no_balance() {
        let sound = Balance::of(&played(), 63);
        assert!(sound.holds());
        let none = Balance::of(&played(), 3);
        assert!(none.is_empty() && none.holds());
        for beside in [heat(1, 0), heat(0, 1), heat(1, -7)] {
            for part in 0..4 {
                let mut balance = sound;
                let parts = [
                    &mut balance.sent,
                    &mut balance.paid,
                    &mut balance.open,
                    &mut balance.kept,
                ];
                let off = parts.into_iter().nth(part).unwrap();
                *off = *off + beside;
                assert!(!balance.holds() && !balance.is_empty());
            }
        }
    }
}
