//! The journals to measure with: each reaches what it is for, with and without the host's checks.

use std::process::Command;

use reference::generate::{write_still, write_workload, Workload, WORKLOADS};
use reference::node::{call, open, Lent, State, LINES, SHARE};
use reference::playback::{acknowledge_all, play, play_unchecked, Mode};
use reference::record::AREA_BYTES;
use reference::text::{next_line, DONE, STEP};

const ALL: u32 = (LINES * SHARE) as u32;

fn workload(workload: Workload, lines: u64) -> Vec<u8> {
    let mut bytes = Vec::new();
    write_workload(workload, 1, lines, &mut bytes).unwrap();
    bytes
}

/// Plays a journal as `replay` does and shows each call's answer, records and the kept readings before and after it.
fn watch(journal: &[u8], mut seen: impl FnMut(u32, usize, u32, u32)) {
    let kept = |state: &State| state.lines().iter().map(|head| head.kept).sum();
    let mut lent = Lent::zeroed();
    let settings = next_line(journal);
    let mut rest = &journal[settings.len()..];
    let mut state = open(settings, &mut lent).unwrap();
    let mut area = [0; AREA_BYTES];
    while !rest.is_empty() {
        let text = next_line(rest);
        rest = &rest[text.len()..];
        let before = kept(&state);
        let (answer, records) = call(&mut state, &mut lent, text, &mut area);
        acknowledge_all(&mut state, &mut lent);
        seen(answer, records, before, kept(&state));
    }
}

#[test]
fn the_checks_change_no_output() {
    for (name, kind) in WORKLOADS {
        let journal = workload(kind, 6_000);
        let (mut checked, mut unchecked) = (Vec::new(), Vec::new());
        play(Mode::Replay, &journal[..], &mut checked).unwrap();
        play_unchecked(Mode::Replay, &journal[..], &mut unchecked).unwrap();
        assert!(checked == unchecked, "{name}");
    }
}

#[test]
fn a_full_store_stays_nearly_full() {
    let mut calls = 0;
    watch(
        &workload(Workload::FullStore, 6_000),
        |answer, _, _, kept| {
            calls += 1;
            assert_eq!(answer, 0);
            assert!(calls <= ALL || kept + LINES as u32 >= ALL);
        },
    );
}

#[test]
fn many_records_are_nearly_one_for_each_line() {
    let (mut lines, mut all) = (0, 0);
    watch(
        &workload(Workload::ManyRecords, 6_000),
        |answer, records, _, _| {
            assert_eq!(answer, 0);
            lines += 1;
            all += records;
        },
    );
    assert!(all * 10 >= lines * 9);
}

#[test]
fn most_refused_lines_are_refused() {
    let (mut lines, mut refused) = (0, 0);
    watch(&workload(Workload::Refused, 6_000), |answer, _, _, _| {
        lines += 1;
        refused += u32::from(answer != 0);
    });
    assert!(refused * 2 >= lines);
}

#[test]
fn catching_up_works_a_whole_store_in_one_step() {
    let mut whole = 0;
    watch(
        &workload(Workload::CatchUp, 6_000),
        |answer, _, before, after| {
            assert_eq!(answer, 0);
            whole += u32::from(before == ALL && after == 0);
        },
    );
    assert_eq!(whole, 2);
}

#[test]
fn a_store_held_still_changes_nothing() {
    for kind in [DONE, STEP] {
        for kept in [0, 256, 2_048] {
            let mut journal = Vec::new();
            write_still(kind, kept, 50, &mut journal).unwrap();
            let mut still = 0;
            watch(&journal, |answer, records, before, after| {
                assert_eq!((answer, records), (0, 0));
                still += u32::from(before == after && u64::from(after) == kept);
            });
            assert_eq!(still, 50);
        }
    }
}

#[test]
fn the_programs_ask_for_their_arguments() {
    for wrong in [&["day", "1"][..], &["night", "1", "2"], &["R", "2049", "1"]] {
        let mut program = Command::new(env!("CARGO_BIN_EXE_workload"));
        assert_eq!(program.args(wrong).output().unwrap().status.code(), Some(2));
    }
    let mut program = Command::new(env!("CARGO_BIN_EXE_reference-merge"));
    let refused = program.arg("--other").output().unwrap();
    assert_eq!(refused.status.code(), Some(2));
}
