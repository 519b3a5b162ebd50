//! Demand 3 on generated lists of journal calls and displays' calls: clean, never struck, failure-free,
//! settling in exactly as many steps as document 02 counts, replicas; and wherever it is checked, what
//! the send-back store holds, and the heat balance.

mod common;

use std::collections::BTreeMap;

use common::balance::Balances;
use common::replica::replica;
use reference::generate::{aimed_display_call, input_for, Kind, Random};
use reference::monitor::{check, check_replicas, check_sent, Run};
use reference::node::{free_places, Input, Reading, State, Word, METERS, SHARE};
use reference::playback::Mode;
use reference::record::AREA_BYTES;
use reference::text::{next_line, read_call, Call};

/// From so many stable buckets left on, a journal is not always worked to its end.
const FAR: u32 = 2_000;
/// From so many on never.
const TOO_FAR: u32 = 150_000;

/// What became of the lists.
#[derive(Debug, Default)]
struct Tally {
    lists: u32,
    calls: u64,
    results: usize,
    undone: u64,
    replicas: u32,
    /// From which state, and with how many stable buckets left (2 stands for two or more), steps
    /// were counted.
    counted: BTreeMap<(&'static str, u32), u32>,
    /// How often steps that were to settle were refused for want of places.
    waited: u32,
    /// How often each thing came of the displays' side: answers to their calls, steps refused for
    /// want of places, and how much was held where it was checked.
    displays: BTreeMap<String, u32>,
    balances: Balances,
}

impl Tally {
    fn count(&mut self, what: impl Into<String>) {
        *self.displays.entry(what.into()).or_insert(0) += 1;
    }

    /// Checks all that must be so after a list.
    fn check(&mut self, run: &Run, refused: &[Call]) {
        check(&run.watch).unwrap();
        check_sent(run).unwrap();
        self.balances.check(run, refused);
        self.count(match free_places(&run.state) {
            0 => "full",
            512 => "empty",
            _ => "partly full",
        });
    }
}

/// A list played, with its journal calls of the form by how they were answered.
struct Played {
    run: Run,
    accepted: Vec<Call>,
    refused: Vec<Call>,
}

/// Plays a list, some calls of it first over a short area; checks at some places on the way and at the end.
fn play(kind: Kind, seed: u64, lines: u64, tally: &mut Tally) -> Option<Played> {
    let bytes = input_for(Mode::Console, kind, seed, lines);
    let mut random = Random::new(seed);
    let settings = next_line(&bytes);
    let mut rest = &bytes[settings.len()..];
    let mut run = Run::open(settings).ok()?;
    let (mut accepted, mut refused) = (Vec::new(), Vec::new());
    while !rest.is_empty() {
        let text = next_line(rest);
        rest = &rest[text.len()..];
        let fill = random.pick(&[0, 0xFF]);
        let mut area = vec![fill; AREA_BYTES + random.pick(&[0, 0, 7])];
        let input = Input::of_line(text);
        if random.once_in(50) {
            let short = &mut [fill; AREA_BYTES - 1];
            assert_eq!(run.feed_input(input, short), Ok(5));
            assert_eq!(*short, [fill; AREA_BYTES - 1]);
            refused.extend(read_call(text));
        }
        let answer = run.feed_input(input, &mut area).unwrap();
        tally.calls += 1;
        match input {
            Input::Journal(_) => {
                tally.undone += u64::from(answer == 0 && area[0] == b'U');
                let answered = if answer == 0 {
                    &mut accepted
                } else {
                    &mut refused
                };
                answered.extend(read_call(text));
                if answer == 15 {
                    tally.count(format!("15 while {}", run.state.word.name()));
                }
            }
            Input::Display(call) => tally.count(format!("{:?} {answer}", call.wish)),
        }
        if random.once_in(60) || (answer == 15 && random.once_in(4)) {
            tally.check(&run, &refused);
            check_facts(&run, &accepted);
            if run.watch.monitor.left() < FAR {
                let from = (run.state.word.name(), run.watch.monitor.left().min(2));
                if settle(&mut run.clone(), &mut random) {
                    *tally.counted.entry(from).or_insert(0) += 1;
                } else {
                    tally.waited += 1;
                }
            }
        }
    }
    tally.lists += 1;
    Some(Played {
        run,
        accepted,
        refused,
    })
}

/// Steps until it has settled, with nothing between them, with calls of displays, or with all of them
/// acknowledging where places may be wanting; whether no step was refused.
fn settle(run: &mut Run, random: &mut Random) -> bool {
    let pace = random.pick(&[0, 1, 60, 900_000]);
    match random.below(3) {
        0 => run.settle(pace, |_| Ok(())).unwrap(),
        1 => run.settle(pace, |run| strew(run, random)).unwrap(),
        _ => settle_surely(run, pace),
    }
}

/// The same with no step refused.
fn settle_surely(run: &mut Run, pace: u32) -> bool {
    let settled = run.settle(pace, |run| {
        if free_places(&run.state) < METERS {
            run.acknowledge_all()?;
        }
        Ok(())
    });
    assert_eq!(settled, Ok(true));
    true
}

/// The call of a display, half the time.
fn strew(run: &mut Run, random: &mut Random) -> Result<(), String> {
    if random.once_in(2) {
        let call = aimed_display_call(random, &run.state);
        run.feed_display(&call, &mut [0; AREA_BYTES])?;
    }
    Ok(())
}

/// What ties the node to the monitor after any list of calls from a fresh opening, and what is
/// then so of each line.
fn check_facts(run: &Run, accepted: &[Call]) {
    let (state, monitor) = (&run.state, &run.watch.monitor);
    assert_eq!((state.c, state.p), (monitor.d(), monitor.t()));
    assert_eq!(state.word == Word::Correcting, monitor.mark());
    assert_eq!(state.word == Word::Failure, monitor.t() > monitor.d());
    if state.p == state.c {
        assert_eq!(state.operator, state.checkpoint);
    }
    for line in 0..state.settings.lines as usize {
        let stable = |call: &&Call| call.kind == b'S' && usize::from(call.line) == line + 1;
        let count = accepted.iter().filter(stable).count();
        check_line(state, &run.lent.store, line, count as u32);
    }
}

fn check_line(state: &State, store: &[Reading], line: usize, stable: u32) {
    let head = &state.heads[line];
    let share = &store[line * SHARE..(line + 1) * SHARE];
    let (kept, free) = share.split_at(head.kept as usize);
    assert!(free.iter().all(|place| *place == Reading::ZERO));
    assert_eq!(head.last_stable_id, stable);
    let tentative = kept.iter().any(|reading| reading.kind == b'T');
    assert_eq!(tentative, head.last_stable_id < head.last_id);
    for reading in kept {
        assert!(reading.time / state.settings.bucket >= state.c);
        assert!(reading.kind == b'S' || reading.time >= head.boundary);
        assert!(reading.id <= head.last_id && reading.arrival <= state.clock);
    }
}

/// Plays lists of one kind, each to its end and on until it has settled, with a replica.
fn play_all(kind: Kind, seeds: std::ops::Range<u64>, lines: u64) -> Tally {
    let mut tally = Tally::default();
    for seed in seeds {
        let Some(played) = play(kind, seed, lines, &mut tally) else {
            continue;
        };
        let Played {
            mut run,
            accepted,
            refused,
        } = played;
        let mut random = Random::new(seed ^ 0xFF);
        tally.check(&run, &refused);
        let left = run.watch.monitor.left();
        if left >= TOO_FAR || (left >= FAR && seed % 10 != 0) {
            continue;
        }
        settle_surely(&mut run, random.pick(&[0, 3, 100]));
        tally.check(&run, &refused);
        check_facts(&run, &accepted);
        tally.results += run.watch.output.stable().unwrap().len();
        if let Some(mut other) = replica(&run, &accepted, &mut random) {
            tally.check(&other, &[]);
            settle_surely(&mut other, 1);
            tally.check(&other, &[]);
            let compared = check_replicas(&run.watch, &other.watch).unwrap();
            tally.replicas += u32::from(compared);
        }
    }
    tally
}

#[test]
fn demand_3_on_nasty_lists() {
    let tally = play_all(Kind::Nasty, 0..2_500, 400);
    assert!(tally.lists > 2_300 && tally.calls > 900_000, "{tally:?}");
    assert!(tally.results > 12_000 && tally.undone > 4_000, "{tally:?}");
    assert!(tally.replicas > 2_100, "{tally:?}");
    assert_eq!(tally.counted.len(), 9, "{tally:?}");
    assert!(tally.counted.values().all(|&times| times > 50), "{tally:?}");
    assert!(tally.balances.places > 23_000, "{tally:?}");
    assert!(tally.balances.are_of_all(1_000), "{tally:?}");
    assert!(tally.balances.at_once > 100, "{tally:?}");
}

#[test]
fn demand_3_on_days() {
    let tally = play_all(Kind::Day, 0..300, 1_500);
    assert!(tally.lists == 300 && tally.results > 8_000, "{tally:?}");
    assert!(tally.undone > 300, "{tally:?}");
    assert!(tally.replicas > 240, "{tally:?}");
    assert!(tally.balances.are_of_all(500), "{tally:?}");
}

#[test]
fn demand_3_on_malformed_lists() {
    let tally = play_all(Kind::Malformed, 0..1_000, 400);
    assert!(tally.lists > 800 && tally.results > 1_500, "{tally:?}");
    assert!(tally.replicas > 700, "{tally:?}");
    assert!(tally.balances.are_of_all(100), "{tally:?}");
}

/// Lists with more results than the send-back store holds, most of them acknowledged too late.
#[test]
fn demand_3_on_filling_lists() {
    let tally = play_all(Kind::Filling, 0..80, 1_600);
    assert!(tally.lists == 80 && tally.results > 60_000, "{tally:?}");
    assert!(tally.replicas > 60 && tally.waited > 200, "{tally:?}");
    assert_eq!(tally.displays.len(), 11, "{tally:?}");
    let often = tally.displays.values().all(|&times| times > 100);
    assert!(often, "{tally:?}");
}
