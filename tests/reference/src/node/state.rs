//! The state of a node; every field may hold any number that its type can hold.

use super::operator::Operator;
use crate::text::Settings;

/// The lines that a state has room for.
pub const LINES: usize = 8;
/// The displays that a state has room for.
pub const DISPLAYS: usize = 4;

/// The state's word, as printed.
#[derive(Clone, Copy, Debug, PartialEq, Eq)]
pub enum Word {
    Stable,
    Failure,
    Correcting,
}

impl Word {
    /// The word's text.
    pub fn name(self) -> &'static str {
        match self {
            Word::Stable => "stable",
            Word::Failure => "failure",
            Word::Correcting => "correcting",
        }
    }
}

/// What the node knows of one line.
#[derive(Clone, Copy, Debug, Default, PartialEq, Eq)]
pub struct Head {
    pub boundary: u32,
    pub last_id: u32,
    pub last_stable_id: u32,
    pub kept: u32,
}

/// A node between two calls; line n has the head n - 1, and display n the entry n - 1 of the ids up
/// to which stable results are acknowledged.
#[derive(Clone, Debug, PartialEq, Eq)]
pub struct State {
    pub settings: Settings,
    pub clock: u32,
    pub c: u32,
    pub p: u32,
    pub word: Word,
    pub heads: [Head; LINES],
    pub operator: Operator,
    pub checkpoint: Operator,
    pub acknowledged: [u64; DISPLAYS],
}

impl State {
    /// What an accepted opening leaves.
    pub fn fresh(settings: Settings) -> Self {
        State {
            settings,
            clock: 0,
            c: 0,
            p: 0,
            word: Word::Stable,
            heads: [Head::default(); LINES],
            operator: Operator::CLEAR,
            checkpoint: Operator::CLEAR,
            acknowledged: [0; DISPLAYS],
        }
    }

    /// The heads of the lines that the settings have; call only with lines within the limits.
    pub fn lines(&self) -> &[Head] {
        &self.heads[..self.settings.lines as usize]
    }

    /// What each display that the settings have has acknowledged; call only with displays within the
    /// limits.
    pub fn displays(&self) -> &[u64] {
        &self.acknowledged[..self.settings.displays as usize]
    }

    /// The id up to which all displays have acknowledged, likewise.
    pub fn least_acknowledged(&self) -> u64 {
        self.displays()
            .iter()
            .fold(u64::MAX, |least, &id| least.min(id))
    }

    /// The id of the newest stable result; tentative ones are numbered from there on.
    pub fn newest_stable(&self) -> u64 {
        self.checkpoint.newest
    }
}
