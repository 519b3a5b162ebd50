//! The program `console` from standard input to standard output: reference-console [--unchecked].
//!
//! It is `merge`, but takes lines for the calls of displays among the journal lines.

use std::process::ExitCode;

use reference::playback::{run_program, Mode};

fn main() -> ExitCode {
    run_program("reference-console", Mode::Console)
}
