//! The programs as they are run from a shell.

use std::fs::File;
use std::io::Write;
use std::process::{Command, Output, Stdio};

use reference::differential::{due_balance, due_output};
use reference::generate::{input_for, KINDS};
use reference::playback::{Mode, MODES};

const MERGE: &str = env!("CARGO_BIN_EXE_reference-merge");
const REPLAY: &str = env!("CARGO_BIN_EXE_reference-replay");
const CONSOLE: &str = env!("CARGO_BIN_EXE_reference-console");
const BALANCE: &str = env!("CARGO_BIN_EXE_reference-balance");

fn run(program: &str, input: &[u8]) -> Output {
    let mut child = Command::new(program)
        .stdin(Stdio::piped())
        .stdout(Stdio::piped())
        .stderr(Stdio::piped())
        .spawn()
        .unwrap();
    let mut stdin = child.stdin.take().unwrap();
    let bytes = input.to_vec();
    let feeder = std::thread::spawn(move || stdin.write_all(&bytes));
    let output = child.wait_with_output().unwrap();
    let _ = feeder.join().unwrap();
    output
}

fn run_generate(arguments: &[&str]) -> Output {
    let mut command = Command::new(env!("CARGO_BIN_EXE_generate"));
    command.args(arguments).output().unwrap()
}

fn program_of(mode: Mode) -> &'static str {
    match mode {
        Mode::Merge => MERGE,
        Mode::Replay => REPLAY,
        Mode::Console => CONSOLE,
    }
}

#[test]
fn programs_agree_with_the_library() {
    for (name, kind) in KINDS {
        for (program, mode) in MODES {
            let generated = run_generate(&[name, "3", "3000", program]);
            assert!(generated.status.success());
            assert!(generated.stdout == input_for(mode, kind, 3, 3_000));
            let played = run(program_of(mode), &generated.stdout);
            assert!(played.status.success());
            assert!(played.stdout == due_output(mode, &generated.stdout));
        }
        let generated = run_generate(&[name, "3", "3000"]);
        assert!(generated.stdout == input_for(Mode::Merge, kind, 3, 3_000));
        let balanced = run(BALANCE, &generated.stdout);
        assert!(balanced.status.success());
        assert!(!balanced.stdout.is_empty());
        assert!(balanced.stdout == due_balance(&generated.stdout).unwrap().into_bytes());
    }
}

#[test]
fn programs_end_at_refused_settings() {
    for (_, mode) in MODES {
        let played = run(program_of(mode), &b"x\n".repeat(100_000));
        assert_eq!(played.stdout, b"answer=1 records=0 state=none\n");
        assert!(played.status.success());
    }
}

#[test]
fn balance_names_refused_settings() {
    let beyond = b"lines=9 bucket=100 window=1 hold=50 low=-1000 high=1000 displays=1\n";
    for (input, refusal) in [(&b""[..], "1"), (b"x\nx\n", "1"), (beyond, "2")] {
        let balanced = run(BALANCE, input);
        assert_eq!(balanced.status.code(), Some(1));
        assert_eq!(balanced.stdout, b"");
        let due = format!("reference-balance: settings refused with {refusal}\n");
        assert_eq!(balanced.stderr, due.into_bytes());
    }
}

#[test]
fn balance_names_an_input_that_cannot_be_read() {
    let folder = File::open(env!("CARGO_MANIFEST_DIR")).unwrap();
    let balanced = Command::new(BALANCE).stdin(folder).output().unwrap();
    assert_eq!(balanced.status.code(), Some(1));
    assert_eq!(balanced.stdout, b"");
    assert!(balanced.stderr.starts_with(b"reference-balance: "));
}

#[test]
fn balance_takes_no_arguments() {
    let refused = Command::new(BALANCE).arg("--other").output().unwrap();
    assert_eq!(refused.status.code(), Some(2));
    assert!(refused.stdout.is_empty() && !refused.stderr.is_empty());
}

#[test]
fn generate_asks_for_its_arguments() {
    for wrong in [
        &["day", "1"][..],
        &["night", "1", "2"],
        &["day", "x", "2"],
        &["day", "1", "2", "purge"],
    ] {
        assert_eq!(run_generate(wrong).status.code(), Some(2));
    }
}
