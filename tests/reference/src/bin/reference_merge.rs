//! The program `merge` from standard input to standard output: reference-merge [--unchecked].

use std::process::ExitCode;

use reference::playback::{run_program, Mode};

fn main() -> ExitCode {
    run_program("reference-merge", Mode::Merge)
}
