//! Writes a generated input to standard output: generate KIND SEED LINES [PROGRAM], for `merge` or
//! for the program named.

use std::io::{self, BufWriter, Write};
use std::process::ExitCode;

use reference::generate::{write_input, Kind, KINDS};
use reference::playback::{Mode, MODES};

fn main() -> ExitCode {
    let arguments: Vec<String> = std::env::args().skip(1).collect();
    let Some((kind, seed, lines, mode)) = read(&arguments) else {
        let (kinds, modes) = (KINDS.map(|kind| kind.0), MODES.map(|mode| mode.0));
        let (kinds, modes) = (kinds.join("|"), modes.join("|"));
        eprintln!("usage: generate {kinds} SEED LINES [{modes}]");
        return ExitCode::from(2);
    };
    let mut output = BufWriter::new(io::stdout().lock());
    let written = write_input(mode, kind, seed, lines, &mut output).and_then(|()| output.flush());
    match written {
        Ok(()) => ExitCode::SUCCESS,
        Err(error) => {
            eprintln!("generate: {error}");
            ExitCode::FAILURE
        }
    }
}

fn read(arguments: &[String]) -> Option<(Kind, u64, u64, Mode)> {
    let (kind, seed, lines, mode) = match arguments {
        [kind, seed, lines] => (kind, seed, lines, "merge"),
        [kind, seed, lines, mode] => (kind, seed, lines, mode.as_str()),
        _ => return None,
    };
    let (_, kind) = KINDS.iter().find(|(name, _)| name == kind)?;
    let (_, mode) = MODES.iter().find(|(name, _)| *name == mode)?;
    Some((*kind, seed.parse().ok()?, lines.parse().ok()?, *mode))
}
