//! What is sent back (document 02, W2) on a stored journal played with displays' calls, and what would
//! be found if it were wrong. Demand 3's lists are checked in tests/demand.rs.

mod common;

use common::{plain, spell};
use reference::differential::due_output;
use reference::monitor::{check, check_balance, check_sent, Run};
use reference::node::{Input, SENT_BYTES};
use reference::playback::Mode;
use reference::record::AREA_BYTES;
use reference::text::{DisplayCall, Wish};

const FULL: &[u8] = include_bytes!("../../journals/send-back-full.journal");
const FULL_OUTPUT: &[u8] = include_bytes!("../../journals/send-back-full.output");

fn call(wish: Wish, display: u32, id: u64) -> DisplayCall {
    DisplayCall { wish, display, id }
}

/// The journal played, its send-back store full and the box waiting.
fn waiting() -> Run {
    let run = Run::play(FULL).unwrap();
    assert_eq!(run.state.newest_stable(), 512);
    check_sent(&run).unwrap();
    run
}

fn ask(run: &mut Run, call: DisplayCall) -> u32 {
    run.feed_display(&call, &mut [0; AREA_BYTES]).unwrap()
}

fn answers(mode: Mode) -> Vec<String> {
    let output = String::from_utf8(due_output(mode, FULL)).unwrap();
    let lines = output.lines().filter(|line| line.starts_with("answer="));
    lines.map(str::to_string).collect()
}

// In `merge` nobody acknowledges, and the box waits for ever; in `replay` it never waits; at a console
// the journal's own line for a display lets it go on.
#[test]
fn who_acknowledges() {
    assert_eq!(due_output(Mode::Merge, FULL), FULL_OUTPUT);
    let waits = |mode| {
        let lines = answers(mode).into_iter();
        lines.filter(|line| line.starts_with("answer=15 ")).count()
    };
    let modes = [Mode::Merge, Mode::Replay, Mode::Console];
    assert_eq!(modes.map(waits), [4, 0, 2]);
    assert!(answers(Mode::Merge)
        .last()
        .unwrap()
        .starts_with("answer=15"));
}

// Displays' calls move neither the monitor nor the output, and the box goes on after them.
#[test]
fn passed_over_by_the_monitor() {
    let mut run = waiting();
    let (before, records) = (run.clone(), run.watch.output.records().len());
    assert_eq!(ask(&mut run, call(Wish::Fetch, 1, 449)), 0);
    assert_eq!(ask(&mut run, call(Wish::Acknowledge, 1, 500)), 0);
    assert_eq!(ask(&mut run, call(Wish::Fetch, 1, 500)), 17);
    assert_eq!(ask(&mut run, call(Wish::Fetch, 1, 501)), 0);
    let (monitor, past) = (&run.watch.monitor, &before.watch.monitor);
    assert_eq!((monitor.d(), monitor.t()), (past.d(), past.t()));
    assert_eq!((monitor.mark(), monitor.left()), (past.mark(), past.left()));
    assert_eq!(run.watch.output.records().len(), records);
    assert_eq!(run.settle(1, |_| Ok(())), Ok(true));
    assert_eq!(run.watch.output.results().len(), 514);
    check(&run.watch).unwrap();
    check_sent(&run).unwrap();
    check_balance(&run).unwrap();
}

// The steps that settle are not counted where one was refused; with acknowledgements between they
// are as many as without.
#[test]
fn settling_with_calls_between() {
    assert_eq!(waiting().settle(1, |_| Ok(())), Ok(false));
    assert_eq!(waiting().settle(1, Run::acknowledge_all), Ok(true));
}

// Every byte of the store counts: of the places held and free, and of what lies behind them.
#[test]
fn a_byte_off_is_found() {
    let mut run = waiting();
    run.acknowledge_all().unwrap();
    for place in [0, 31, 5_000, SENT_BYTES - 1, SENT_BYTES, SENT_BYTES + 39] {
        for sound in [waiting(), run.clone()] {
            let mut off = sound;
            off.lent.sent[place] ^= 1;
            assert!(check_sent(&off).is_err(), "byte {place}");
        }
    }
}

// A box that gives up what nobody has acknowledged is found, be it its own state or its store.
#[test]
fn acknowledged_by_nobody() {
    let mut run = waiting();
    run.state.acknowledged[0] = 1;
    run.lent.sent[..32].fill(0);
    assert!(check_sent(&run).is_err());
    let said = run.feed_display(&call(Wish::Fetch, 1, 1), &mut [0; AREA_BYTES]);
    assert!(said.is_err(), "{said:?}");
}

// So is one that answers a display by what it holds instead of what is due.
#[test]
fn another_answer_is_found() {
    let mut run = waiting();
    run.watch.acknowledged[0] = 1;
    for wrong in [call(Wish::Acknowledge, 1, 0), call(Wish::Fetch, 1, 1)] {
        let said = run.clone().feed_display(&wrong, &mut [0; AREA_BYTES]);
        assert!(said.is_err(), "{wrong:?} {said:?}");
    }
    let mut run = waiting();
    run.lent.sent[40] ^= 1;
    let fetch = call(Wish::Fetch, 1, 1);
    assert!(run.feed_display(&fetch, &mut [0; AREA_BYTES]).is_err());
}

// A step refused with 15 though places are free, by what was acknowledged, is found.
#[test]
fn a_wait_without_want_is_found() {
    let mut run = waiting();
    let step = spell(&plain(2_000, 0, 'P'));
    let input = Input::Journal(&step);
    let area = &mut [0; AREA_BYTES];
    assert_eq!(run.clone().feed_input(input, area), Ok(15));
    run.watch.acknowledged[0] = 1;
    assert!(run.feed_input(input, area).is_err());
}
