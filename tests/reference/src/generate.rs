//! Seeded journals, host-made states and records to try a merge box with.

mod aim;
mod crowded;
mod day;
mod display;
mod filling;
mod host;
mod host_edge;
mod host_fault;
mod host_sent;
mod journal;
mod malformed;
mod nasty;
mod random;
mod record;
mod workload;

pub use aim::{any_call, fitting_call, spoil_call};
pub use display::aimed_display_call;
pub use host::{edge_case, host_case, host_state, near_host_state, some_sum, Host, HostCase};
pub use host_edge::{edges, Edge};
pub use host_fault::{break_shape, FAULTS};
pub use malformed::spoil_text;
pub use random::Random;
pub use record::{any_bytes, any_record_bytes};
pub use workload::{write_still, write_workload, Workload, WORKLOADS};

use std::io::{self, Write};

use crate::playback::Mode;

/// The kinds of generated journals.
#[derive(Clone, Copy, Debug, PartialEq, Eq)]
pub enum Kind {
    /// A realistic day with outages.
    Day,
    /// Edges, limits, holds at the very tick, full lines, and every refusal a line can get.
    Nasty,
    /// Texts broken at the level of bytes among sound ones.
    Malformed,
    /// Seven or eight lines full of readings of every meter.
    Crowded,
    /// Windows of many meters one after the other, until the send-back store is full.
    Filling,
}

/// The kinds with their names on the command line.
pub const KINDS: [(&str, Kind); 5] = [
    ("day", Kind::Day),
    ("nasty", Kind::Nasty),
    ("malformed", Kind::Malformed),
    ("crowded", Kind::Crowded),
    ("filling", Kind::Filling),
];

impl Kind {
    /// The name that stands for the kind.
    pub fn name(self) -> &'static str {
        let known = KINDS.iter().find(|(_, kind)| *kind == self);
        known.expect("a name for every kind").0
    }
}

/// Writes an input for a program: its settings line, then about so many lines. It is aimed at the
/// state that the program has: beside `merge` displays do nothing, beside `replay` they acknowledge
/// everything at once, and a `console` gets lines for their calls among the journal's.
pub fn write_input(
    mode: Mode,
    kind: Kind,
    seed: u64,
    lines: u64,
    output: &mut dyn Write,
) -> io::Result<()> {
    let write = match kind {
        Kind::Day => day::write,
        Kind::Nasty => nasty::write,
        Kind::Malformed => malformed::write,
        Kind::Crowded => crowded::write,
        Kind::Filling => filling::write,
    };
    write(mode, seed, lines, output)
}

/// The bytes of an input for a program.
pub fn input_for(mode: Mode, kind: Kind, seed: u64, lines: u64) -> Vec<u8> {
    let mut bytes = Vec::new();
    write_input(mode, kind, seed, lines, &mut bytes).expect("memory takes every byte");
    bytes
}

/// The bytes of a journal, as for `merge`.
pub fn journal(kind: Kind, seed: u64, lines: u64) -> Vec<u8> {
    input_for(Mode::Merge, kind, seed, lines)
}
