//! Decisions on what the program `merge` takes for a line, and what it prints. A small test for each.

mod common;

use std::io::{self, Read};

use common::{plain, spell, USUAL};
use reference::generate::{journal, Kind};
use reference::playback::{play, Mode};

fn merged(input: &[u8]) -> String {
    let mut output = Vec::new();
    play(Mode::Merge, input, &mut output).unwrap();
    String::from_utf8(output).unwrap()
}

const NONE: &str = "answer=1 records=0 state=none\n";
const OPENED: &str = "answer=0 records=0 state=stable\n";
const NO_FORM: &str = "answer=6 records=0 state=stable\n";

// No input at all, or only a line end, is a settings line without the form.
#[test]
fn empty_input() {
    assert_eq!(merged(b""), NONE);
    assert_eq!(merged(b"\n"), NONE);
    assert_eq!(merged(b"\n\n\n"), NONE);
}

// A last stretch without line end is a line; behind the last line end there is none.
#[test]
fn last_stretch() {
    assert_eq!(merged(USUAL.trim_end().as_bytes()), NONE);
    assert_eq!(merged(USUAL.as_bytes()), OPENED);
    let step = String::from_utf8(spell(&plain(0, 0, 'P'))).unwrap();
    let whole = format!("{USUAL}{step}");
    assert_eq!(merged(whole.as_bytes()), format!("{OPENED}{OPENED}"));
    let cut = format!("{OPENED}{NO_FORM}");
    assert_eq!(merged(whole.trim_end().as_bytes()), cut);
    assert_eq!(merged(format!("{USUAL}\n").as_bytes()), cut);
    assert_eq!(merged(format!("{USUAL}\0\n").as_bytes()), cut);
}

// However long a line is, it gets one answer, and the one behind it gets its own.
#[test]
fn long_lines() {
    let step = String::from_utf8(spell(&plain(0, 0, 'P'))).unwrap();
    for length in [
        80, 89, 90, 122, 127, 128, 129, 256, 65_535, 65_536, 65_537, 300_000,
    ] {
        let long = "x".repeat(length);
        let input = format!("{USUAL}{long}{step}{step}");
        let due = format!("{OPENED}{NO_FORM}{OPENED}");
        assert_eq!(merged(input.as_bytes()), due, "{length}");
        let tail = format!("{USUAL}{long}");
        assert_eq!(merged(tail.as_bytes()), format!("{OPENED}{NO_FORM}"));
        let settings = format!("{long}{USUAL}");
        assert_eq!(merged(settings.as_bytes()), NONE);
        let behind = format!("{}{long}\n{step}", USUAL.trim_end());
        assert_eq!(merged(behind.as_bytes()), NONE);
    }
}

/// An input that comes in pieces of one size, with interruptions between.
struct Pieces<'a> {
    rest: &'a [u8],
    size: usize,
    interrupted: bool,
}

impl Read for Pieces<'_> {
    fn read(&mut self, room: &mut [u8]) -> io::Result<usize> {
        self.interrupted = !self.interrupted;
        if self.interrupted {
            return Err(io::ErrorKind::Interrupted.into());
        }
        let length = self.size.min(room.len()).min(self.rest.len());
        room[..length].copy_from_slice(&self.rest[..length]);
        self.rest = &self.rest[length..];
        Ok(length)
    }
}

// The pieces in which the input comes make no difference.
#[test]
fn pieces_of_any_size() {
    for seed in 0..30 {
        let input = journal(Kind::Malformed, seed, 60);
        let due = merged(&input);
        for size in [1, 2, 7, 60, 128, 1_000] {
            let pieces = Pieces {
                rest: &input,
                size,
                interrupted: false,
            };
            let mut output = Vec::new();
            play(Mode::Merge, pieces, &mut output).unwrap();
            assert_eq!(String::from_utf8(output).unwrap(), due);
        }
    }
}

// A refused line prints no records and the state as it was; refused settings end it.
#[test]
fn refused_lines() {
    let reading = "now=0 line=1 kind=S id=1 time=10 meter=3 value=7\n";
    let step = "now=50 line=0 kind=P id=0 time=0 meter=0 value=0\n";
    let input = format!("{USUAL}{reading}{step}{reading}x\n");
    let due = format!(
        "{OPENED}{OPENED}answer=0 records=1 state=failure\n\
         kind=T id=1 time=0 meter=3 count=1 sum=7 mean=7 last=7\n\
         answer=7 records=0 state=failure\nanswer=6 records=0 state=failure\n"
    );
    assert_eq!(merged(input.as_bytes()), due);
    let most = u32::MAX;
    let longest = format!(
        "lines={most} bucket={most} window={most} hold={most} low=-2147483648 high=-2147483648 displays={most}\n"
    );
    assert_eq!(
        merged(longest.as_bytes()),
        "answer=2 records=0 state=none\n"
    );
    let limits = USUAL.replace("lines=2", "lines=9");
    let refused = "answer=2 records=0 state=none\n";
    assert_eq!(merged(format!("{limits}{step}{step}").as_bytes()), refused);
}
