//! The program `replay` from standard input to standard output: reference-replay [--unchecked].
//!
//! It is `merge`, but every display acknowledges all stable results of a line before the next is
//! read, so that the send-back store never fills.

use std::process::ExitCode;

use reference::playback::{run_program, Mode};

fn main() -> ExitCode {
    run_program("reference-replay", Mode::Replay)
}
