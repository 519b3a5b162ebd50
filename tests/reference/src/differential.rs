//! Runs another program `merge` on an input and compares what it prints with the reference.

mod balance;
mod coverage;
mod difference;
mod feed;
mod groups;
mod inputs;

pub use balance::{due_balance, paid_in_balance, paid_in_output};
pub use coverage::Coverage;
pub use difference::first_difference;
pub use feed::{run, Feed, Run};
pub use inputs::odd_inputs;

use crate::playback::{play, Mode};
use crate::text::next_line;

/// The lines of a text, each with its line end; a last stretch without one is a line too.
pub fn lines_of(text: &[u8]) -> impl Iterator<Item = &[u8]> {
    let mut rest = text;
    std::iter::from_fn(move || {
        let line = next_line(rest);
        rest = &rest[line.len()..];
        (!line.is_empty()).then_some(line)
    })
}

/// Whether a line of output is the first of the reply to a line of input.
fn starts_reply(line: &[u8]) -> bool {
    line.starts_with(b"answer=")
}

/// What the reference prints for an input as one of the programs.
pub fn due_output(mode: Mode, input: &[u8]) -> Vec<u8> {
    let mut output = Vec::new();
    play(mode, input, &mut output).expect("memory takes every byte");
    output
}
