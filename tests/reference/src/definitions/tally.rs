//! What sorts of calls a set of cases has, so that none crowds out the others.

use std::collections::BTreeMap;
use std::fmt;

use crate::node::{rule, Rule, State, Store, Word, FETCH_LIMIT};
use crate::text::{Call, DisplayCall, Wish, BOUNDARY, DONE, STABLE, TENTATIVE, UNDO};

/// The sorts of journal calls: refusals 3 to 15, the five inputs, the five rules, three of them in
/// two sorts.
pub(super) const JOURNAL_SORTS: usize = 26;
/// The sorts of a display's calls of either kind: refusals 3, 4, 5, 16, 17, and three accepted.
pub(super) const DISPLAY_SORTS: usize = 8;
/// The sorts of openings: accepted, refusals 1 to 3.
pub(super) const OPENING_SORTS: usize = 4;

/// How many cases there are of each sort.
#[derive(Clone, Debug, Default)]
pub struct Tally {
    counts: BTreeMap<&'static str, usize>,
    total: usize,
    passed_over: usize,
}

impl Tally {
    pub(super) fn note(&mut self, sort: &'static str) {
        *self.counts.entry(sort).or_insert(0) += 1;
        self.total += 1;
    }

    /// Notes a case, unless its sort, one of so many, has its share of so many cases already. The
    /// share grows while cases are passed over, since some sorts are rare and some never come.
    pub(super) fn takes(&mut self, sort: &'static str, cases: usize, sorts: usize) -> bool {
        let share = cases.div_ceil(sorts) + self.passed_over / (20 * cases);
        let takes = self.counts.get(sort).is_none_or(|&count| count < share);
        if takes {
            self.note(sort);
        } else {
            self.passed_over += 1;
        }
        takes
    }
}

impl fmt::Display for Tally {
    fn fmt(&self, out: &mut fmt::Formatter) -> fmt::Result {
        write!(out, "{}", self.total)?;
        for (number, (sort, count)) in self.counts.iter().enumerate() {
            let mark = if number == 0 { ": " } else { ", " };
            write!(out, "{mark}{sort} {count}")?;
        }
        Ok(())
    }
}

const REFUSALS: [&str; 18] = [
    "accepted",
    "refused 1",
    "refused 2",
    "refused 3",
    "refused 4",
    "refused 5",
    "refused 6",
    "refused 7",
    "refused 8",
    "refused 9",
    "refused 10",
    "refused 11",
    "refused 12",
    "refused 13",
    "refused 14",
    "refused 15",
    "refused 16",
    "refused 17",
];

/// The sort of an answer that is no accepted call's.
pub(super) fn sort_of_answer(answer: u32) -> &'static str {
    REFUSALS[answer as usize]
}

/// The sort of a call on a state and store, with its answer.
pub(super) fn sort_of_call(
    state: &State,
    store: &Store,
    call: Option<&Call>,
    answer: u32,
) -> &'static str {
    let Some(call) = call.filter(|_| answer == 0) else {
        return sort_of_answer(answer);
    };
    match call.kind {
        STABLE => "S",
        TENTATIVE => "T",
        BOUNDARY => "B",
        UNDO => "U",
        DONE => "R",
        _ => sort_of_step(state, store, call.now),
    }
}

/// The sort of a display's accepted call, with the state before and after it and its records: whether
/// an acknowledgement is of the same id, and whether it gives anything up; how much a fetch gives.
pub(super) fn sort_of_display_call(
    before: &State,
    after: &State,
    call: DisplayCall,
    records: usize,
) -> &'static str {
    match call.wish {
        Wish::Acknowledge if before == after => "same id",
        Wish::Acknowledge if before.least_acknowledged() == after.least_acknowledged() => {
            "none given up"
        }
        Wish::Acknowledge => "given up",
        Wish::Fetch if records == 0 => "fetched none",
        Wish::Fetch if records as u64 == FETCH_LIMIT => "fetched 64",
        Wish::Fetch => "fetched fewer",
    }
}

/// The rule of an accepted step; working a bucket, whether it closes a window, and closing a
/// correction, whether tentative work is due as well.
fn sort_of_step(state: &State, store: &Store, now: u32) -> &'static str {
    let mut state = state.clone();
    state.clock = now;
    let applies = rule(&state, store);
    let closes = |bucket: u32| (bucket + 1).is_multiple_of(state.settings.window);
    match applies {
        Rule::Withdraw => "rule 1",
        Rule::WorkStable if closes(state.c) => "rule 2, window",
        Rule::WorkStable => "rule 2",
        Rule::WorkTentative if closes(state.p) => "rule 4, window",
        Rule::WorkTentative => "rule 4",
        Rule::Idle => "rule 5",
        Rule::CloseCorrection => {
            state.word = Word::Stable;
            if rule(&state, store) == Rule::WorkTentative {
                "rule 3, due"
            } else {
                "rule 3"
            }
        }
    }
}
