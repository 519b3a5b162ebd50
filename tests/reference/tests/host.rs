//! Host-made states: the call against its slow double, and against what was broken on purpose.

mod common;

use std::collections::BTreeMap;

use common::literal::{literal_call, Outcome};
use reference::generate::{aimed_display_call, edge_case, edges, host_case, host_state};
use reference::generate::{Edge, Host, HostCase, Random, FAULTS};
use reference::node::{call, make, rule, Head, Input, State};
use reference::record::AREA_BYTES;
use reference::text::{has_form, read_call, DisplayCall, Wish};

fn quick_call(case: &HostCase) -> Outcome {
    let mut outcome = Outcome {
        state: case.host.state.clone(),
        lent: case.host.lent.clone(),
        area: case.area.clone(),
        answer: 0,
        records: 0,
    };
    let Outcome {
        state, lent, area, ..
    } = &mut outcome;
    let (answer, records) = make(state, lent, case.input(), area);
    (outcome.answer, outcome.records) = (answer, records);
    outcome
}

/// Makes a call in both ways, which must agree.
fn both_calls(case: &HostCase) -> Outcome {
    let quick = quick_call(case);
    let slow = literal_call(&case.host.state, &case.host.lent, case.input(), &case.area);
    assert!(quick == slow, "{case:?}");
    quick
}

#[test]
fn calls_agree_with_the_slow_double() {
    let mut random = Random::new(1);
    let mut answers = BTreeMap::new();
    let mut rules = BTreeMap::new();
    let mut displays = BTreeMap::new();
    for _ in 0..60_000 {
        let case = host_case(&mut random);
        let quick = both_calls(&case);
        *answers.entry(quick.answer).or_insert(0) += 1;
        match case.fault {
            Some(fault) => assert_eq!(quick.answer, fault as u32),
            None => assert!(quick.answer != 3 && quick.answer != 4),
        }
        if let Some(call) = case.display {
            let key = (format!("{:?}", call.wish), quick.answer);
            *displays.entry(key).or_insert(0) += 1;
            continue;
        }
        let step = read_call(&case.text).is_some_and(|call| call.kind == b'P');
        if quick.answer == 0 && step {
            let mut state = case.host.state.clone();
            state.clock = quick.state.clock;
            let rule = format!("{:?}", rule(&state, &case.host.lent.store));
            *rules.entry(rule).or_insert(0) += 1;
        }
    }
    let seen: Vec<u32> = answers.keys().copied().collect();
    assert_eq!(
        seen,
        [0, 3, 4, 5, 6, 7, 8, 9, 10, 11, 12, 13, 14, 15, 16, 17]
    );
    assert!(answers.values().all(|&times| times > 100), "{answers:?}");
    assert_eq!(rules.len(), 5);
    assert!(rules.values().all(|&times| times > 100), "{rules:?}");
    assert_eq!(displays.len(), 2 * 6, "{displays:?}");
    assert!(displays.values().all(|&times| times > 50), "{displays:?}");
}

/// Several calls from each host-made state, so that what a call leaves is tried as well.
#[test]
fn lists_from_host_made_states_agree_with_the_slow_double() {
    let mut random = Random::new(2);
    for _ in 0..1_500 {
        let mut case = host_case(&mut random);
        for _ in 0..12 {
            let quick = both_calls(&case);
            case.host.state = quick.state;
            case.host.lent = quick.lent;
            case.area = quick.area;
            let clock = case
                .host
                .state
                .clock
                .saturating_add(random.below(60) as u32);
            let step = format!("now={clock} line=0 kind=P id=0 time=0 meter=0 value=0\n");
            case.text = step.into_bytes();
            case.display = random
                .once_in(3)
                .then(|| aimed_display_call(&mut random, &case.host.state));
        }
    }
}

#[test]
fn every_fault_gets_its_refusal() {
    let mut random = Random::new(3);
    let step = b"now=4294967295 line=0 kind=P id=0 time=0 meter=0 value=0\n";
    assert!(has_form(step));
    for fault in FAULTS {
        let mut done = 0;
        while done < 100 {
            let mut host = host_state(&mut random);
            let mut area = [0; AREA_BYTES];
            let mut sound = host.clone();
            let answer = call(&mut sound.state, &mut sound.lent, step, &mut area).0;
            assert!(answer == 0 || answer == 15);
            if let Some(refusal) = fault(&mut random, &mut host) {
                let before = host.clone();
                let wrong = DisplayCall {
                    wish: random.pick(&[Wish::Acknowledge, Wish::Fetch]),
                    display: 0,
                    id: 0,
                };
                for input in [Input::Journal(b""), Input::Display(wrong)] {
                    let Host { state, lent } = &mut host;
                    let (answer, records) = make(state, lent, input, &mut []);
                    assert_eq!((answer, records), (refusal as u32, 0));
                    assert!(host == before);
                }
                done += 1;
            }
        }
    }
}

/// At every bound of meters and heads no refusal fits, one past it refusal 4; what is junk does not matter.
#[test]
fn every_edge_gets_its_answer() {
    let mut random = Random::new(4);
    for edge in edges() {
        for _ in 0..40 {
            let case = edge_case(&mut random, edge);
            let quick = both_calls(&case);
            assert!(edge.is_in(&case.host.state));
            match edge.refusal() {
                Some(refusal) => assert_eq!(quick.answer, refusal as u32, "{edge:?}"),
                None => assert!(quick.answer != 3 && quick.answer != 4, "{edge:?}"),
            }
        }
    }
}

/// Heads that no line has, and the meters' last values, do not matter to what is answered.
#[test]
fn junk_does_not_matter() {
    let mut random = Random::new(6);
    let is_junk = |edge: &Edge| edge.name() == "heads past lines" || edge.name() == "lasts";
    for edge in edges().into_iter().filter(is_junk) {
        for _ in 0..100 {
            let case = edge_case(&mut random, edge);
            let mut plain = case.clone();
            let State {
                settings,
                heads,
                operator,
                checkpoint,
                ..
            } = &mut plain.host.state;
            let lines = settings.lines as usize;
            heads[lines..].fill(Head::default());
            let meters = operator.meters.iter_mut().chain(&mut checkpoint.meters);
            meters.for_each(|meter| meter.last = 0);
            let (junk, plain) = (quick_call(&case), quick_call(&plain));
            let answered = (plain.answer, plain.records);
            assert_eq!((junk.answer, junk.records), answered, "{edge:?}");
            let past = &case.host.state.heads[lines..];
            assert_eq!(&junk.state.heads[lines..], past);
        }
    }
}

/// Some host-made call is at each edge.
#[test]
fn host_made_calls_reach_every_edge() {
    let mut random = Random::new(5);
    let mut left = edges();
    for _ in 0..20_000 {
        let case = host_case(&mut random);
        if case.host.state.settings.within_limits() {
            left.retain(|edge| !edge.is_in(&case.host.state));
        }
    }
    assert_eq!(left, []);
}
