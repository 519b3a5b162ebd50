//! The heat balance (document 02, W11) of the stored journal that is made for it, and what would
//! upset it there. Demand 3's journals are balanced in tests/demand.rs.

use reference::differential::{due_balance, due_output, paid_in_balance, paid_in_output};
use reference::monitor::{check_balance, paid_heat, Balance, Heat, Run};
use reference::playback::Mode;
use reference::record::Record;
use reference::text::{next_line, read_call, STABLE, TENTATIVE};

const JOURNAL: &[u8] = include_bytes!("../../journals/heat-balance.journal");
const OUTPUT: &[u8] = include_bytes!("../../journals/heat-balance.output");
const BALANCE: &str = include_str!("../../journals/heat-balance.balance");

/// The meter that has something of everything.
const METER: u8 = 3;

fn played() -> Run {
    Run::play(JOURNAL).unwrap()
}

fn heat(count: u64, sum: i128) -> Heat {
    Heat { count, sum }
}

/// The meter's balance in a run that was tampered with, which must not hold.
fn upset(run: &Run) -> Balance {
    let balance = Balance::of(run, METER);
    assert!(!balance.holds(), "{balance}");
    balance
}

#[test]
fn stored_journal_has_its_balance() {
    assert_eq!(due_balance(JOURNAL).unwrap(), BALANCE);
    assert_eq!(due_output(Mode::Merge, JOURNAL), OUTPUT);
    let paid = paid_in_output(OUTPUT).unwrap();
    assert_eq!(paid.len(), 2);
    assert_eq!(paid_in_balance(BALANCE.as_bytes()), Some(paid));
    let balance = Balance::of(&played(), METER);
    assert_eq!(balance.sent, heat(5, 605));
    assert_eq!(balance.paid, heat(2, 5));
    assert_eq!(balance.open, heat(1, 40));
    assert_eq!(balance.kept, heat(2, 560));
}

/// After every line, the opening among them.
#[test]
fn stored_journal_balances_on_the_way() {
    let mut end = 0;
    while end < JOURNAL.len() {
        end += next_line(&JOURNAL[end..]).len();
        check_balance(&Run::play(&JOURNAL[..end]).unwrap()).unwrap();
    }
}

#[test]
fn operator_is_not_the_checkpoint() {
    let mut run = played();
    run.state.checkpoint = run.state.operator.clone();
    assert_eq!(upset(&run).open, heat(1, 9));
}

#[test]
fn tentative_readings_kept_do_not_count() {
    let mut run = played();
    for reading in &mut run.lent.store {
        if reading.kind == TENTATIVE {
            reading.kind = STABLE;
        }
    }
    assert_eq!(upset(&run).kept, heat(3, 569));
}

/// The journal's stable readings, whether accepted or not.
#[test]
fn refused_readings_do_not_count() {
    let mut run = played();
    let lines = JOURNAL.split_inclusive(|&byte| byte == b'\n');
    let calls = lines.filter_map(read_call);
    run.watch.stable = calls.filter(|call| call.kind == STABLE).collect();
    assert_eq!(upset(&run).sent, heat(6, 905));
}

/// Accepted above high and below low; the latter is kept.
#[test]
fn readings_outside_the_limits_do_not_count() {
    let mut run = played();
    run.watch.settings.high = i32::MAX;
    assert_eq!(upset(&run).sent, heat(6, 1_606));
    let mut run = played();
    run.state.settings.low = i32::MIN;
    assert_eq!(upset(&run).kept, heat(3, -441));
}

#[test]
fn tentative_results_are_not_paid() {
    let run = played();
    let records = run.watch.output.records().iter();
    let all: Vec<Record> = records
        .map(|&record| Record {
            kind: STABLE,
            ..record
        })
        .collect();
    let balance = Balance {
        paid: paid_heat(&all, METER),
        ..Balance::of(&run, METER)
    };
    assert_eq!(balance.paid, heat(4, 545));
    assert!(!balance.holds());
}
