//! The programs against a plain double of them, and what the generated inputs reach.

use std::collections::BTreeSet;

use reference::generate::{input_for, journal, Kind, KINDS};
use reference::node::{acknowledge, call, fetch, open, Lent};
use reference::playback::{play, Mode, MODES};
use reference::record::{decode, AREA_BYTES};
use reference::refusal::answer;
use reference::text::next_line;

/// A display's line, read loosely and asked to be the very same when written again.
fn display_line(text: &[u8]) -> Option<(&str, u32, u64)> {
    let text = std::str::from_utf8(text).ok()?;
    let words: Vec<&str> = text.split([' ', '=', '\n']).collect();
    let [wish @ ("ack" | "fetch"), "display", display, "id", id, ""] = words[..] else {
        return None;
    };
    let (display, id) = (display.parse().ok()?, id.parse().ok()?);
    let again = format!("{wish} display={display} id={id}\n");
    (again == text).then_some((wish, display, id))
}

/// What a program prints, put together line by line with the full calls.
fn plain_play(mode: Mode, input: &[u8]) -> String {
    let mut lent = Lent::zeroed();
    let settings = next_line(input);
    let mut rest = &input[settings.len()..];
    let opened = open(settings, &mut lent);
    let number = answer(&opened);
    let Ok(mut state) = opened else {
        return format!("answer={number} records=0 state=none\n");
    };
    let mut output = "answer=0 records=0 state=stable\n".to_string();
    while !rest.is_empty() {
        let text = next_line(rest);
        rest = &rest[text.len()..];
        let mut area = [0; AREA_BYTES];
        let (number, records) = match display_line(text).filter(|_| mode == Mode::Console) {
            Some(("ack", display, id)) => acknowledge(&mut state, &mut lent, display, id, &area),
            Some((_, display, id)) => fetch(&state, &lent, display, id, &mut area),
            None => call(&mut state, &mut lent, text, &mut area),
        };
        let word = format!("{:?}", state.word).to_lowercase();
        output += &format!("answer={number} records={records} state={word}\n");
        for bytes in area.chunks(32).take(records) {
            let record = decode(bytes).unwrap();
            output += &format!(
                "kind={} id={} time={} meter={} count={} sum={} mean={} last={}\n",
                record.kind as char,
                record.id,
                record.time,
                record.meter,
                record.count,
                record.sum,
                record.mean,
                record.last
            );
        }
        if mode == Mode::Replay {
            for display in 1..=state.settings.displays {
                let newest = state.checkpoint.newest;
                acknowledge(&mut state, &mut lent, display, newest, &area);
            }
        }
    }
    output
}

fn played(mode: Mode, input: &[u8]) -> String {
    let mut output = Vec::new();
    play(mode, input, &mut output).unwrap();
    String::from_utf8(output).unwrap()
}

/// The answers and record kinds that a program prints for inputs of a kind, each compared with the
/// double.
fn printed(mode: Mode, kind: Kind, seeds: u64, lines: u64) -> BTreeSet<String> {
    let mut seen = BTreeSet::new();
    for seed in 0..seeds {
        let input = input_for(mode, kind, seed, lines);
        let output = played(mode, &input);
        assert!(output == plain_play(mode, &input), "{kind:?} {seed}");
        let first = |line: &str| line.split(' ').next().unwrap_or_default().to_string();
        seen.extend(output.lines().map(first));
    }
    seen
}

fn answers(numbers: &[u32]) -> BTreeSet<String> {
    let kinds = ["S", "T", "U", "B", "R"].map(|letter| format!("kind={letter}"));
    let answers = numbers.iter().map(|number| format!("answer={number}"));
    answers.chain(kinds).collect()
}

#[test]
fn nasty_journals_reach_every_refusal_of_merge() {
    let seen = printed(Mode::Merge, Kind::Nasty, 300, 500);
    assert_eq!(seen, answers(&[0, 1, 2, 6, 7, 8, 9, 10, 11, 12, 13, 14]));
}

#[test]
fn malformed_journals_reach_every_refusal_of_texts() {
    let seen = printed(Mode::Merge, Kind::Malformed, 300, 500);
    assert!(seen.is_superset(&answers(&[0, 1, 2, 6])));
}

#[test]
fn days_are_seldom_refused() {
    let seen = printed(Mode::Replay, Kind::Day, 40, 2_000);
    assert!(seen.is_superset(&answers(&[0])));
    assert!(seen.is_subset(&answers(&[0, 14])));
}

#[test]
fn crowded_journals_fill_lines_and_areas() {
    let seen = printed(Mode::Merge, Kind::Crowded, 10, 3_000);
    assert!(seen.is_superset(&answers(&[0, 14])));
    let output: String = (0..10)
        .map(|seed| played(Mode::Merge, &journal(Kind::Crowded, seed, 3_000)))
        .collect();
    assert!(output.contains("records=65 "));
}

#[test]
fn filling_journals_run_out_of_places_in_merge_alone() {
    let seen = printed(Mode::Merge, Kind::Filling, 30, 1_500);
    assert!(seen.is_superset(&answers(&[0, 14, 15])));
    let seen = printed(Mode::Replay, Kind::Filling, 30, 1_500);
    assert!(seen.is_superset(&answers(&[0])));
    assert!(!seen.contains("answer=15"));
}

#[test]
fn displays_call_at_a_console_alone() {
    let seen = printed(Mode::Console, Kind::Filling, 40, 1_500);
    assert!(seen.is_superset(&answers(&[0, 6, 15, 16, 17])));
    let seen = printed(Mode::Console, Kind::Nasty, 200, 500);
    let due = answers(&[0, 1, 2, 6, 7, 8, 9, 10, 11, 12, 13, 16, 17]);
    assert!(seen.is_superset(&due), "{seen:?}");
    let input = input_for(Mode::Console, Kind::Filling, 1, 500);
    let output = played(Mode::Merge, &input);
    assert!(output == plain_play(Mode::Merge, &input));
    assert!(output.contains("answer=6 ") && !output.contains("answer=16 "));
}

#[test]
fn equal_seeds_give_equal_journals() {
    for (mode, kind) in MODES
        .iter()
        .flat_map(|(_, mode)| KINDS.map(|kind| (*mode, kind.1)))
    {
        let input = input_for(mode, kind, 5, 100);
        assert_eq!(input, input_for(mode, kind, 5, 100));
        assert_ne!(input, input_for(mode, kind, 6, 100));
    }
}
