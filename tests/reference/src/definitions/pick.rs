//! Which questions are asked: host-made calls of every sort, stretches of journals with displays' calls
//! among them, openings.

use super::columns::Columns;
use super::question::{HostQuestion, Loan, NodeQuestion};
use super::tally::{Tally, DISPLAY_SORTS, JOURNAL_SORTS, OPENING_SORTS};
use super::texts::settings_text;
use crate::generate::{aimed_display_call, edge_case, edges, fitting_call, host_case, host_state};
use crate::generate::{input_for, spoil_call, Edge, Host, HostCase, Kind, Random};
use crate::node::{bucket_of, make, open, Input, Lent, Reading, State, Store};
use crate::node::{LINES, SENT_BYTES, SHARE};
use crate::playback::Mode;
use crate::record::{AREA_BYTES, RECORD_BYTES};
use crate::refusal::Refusal;
use crate::text::{next_line, read_call, read_display_call, read_settings, Call, Wish, STEP};

/// The readings of one bucket that a question has at most; sorting more takes antt long.
const FEW: usize = 100;
/// The same, for the few questions that may take longer.
const MANY: usize = 300;

/// The readings kept of bucket c or p, whichever has more, in a state that may be out of shape.
fn work_load(state: &State, store: &Store) -> usize {
    let length = state.settings.bucket.max(1);
    let lines = (state.settings.lines as usize).min(LINES);
    let in_bucket = |bucket: u32| -> usize {
        let of_line = |line: usize| {
            let start = (line * SHARE).min(store.len());
            let kept = (state.heads[line].kept as usize).min(SHARE);
            let share = &store[start..(start + kept).min(store.len())];
            let inside = |reading: &&Reading| bucket_of(reading.time, length) == bucket;
            share.iter().filter(inside).count()
        };
        (0..lines).map(of_line).sum()
    };
    in_bucket(state.c).max(in_bucket(state.p))
}

/// Whether a question would take antt too long; once in a while a longer one is let through.
fn is_heavy(random: &mut Random, state: &State, store: &Store, call: Option<Call>) -> bool {
    let most = if random.once_in(24) { MANY } else { FEW };
    call.is_some_and(|call| call.kind == STEP) && work_load(state, store) > most
}

/// A host-made call, its columns now and then of lengths of their own; none, but for once in a while,
/// where it would take antt long.
fn host_question(random: &mut Random, case: HostCase) -> Option<HostQuestion> {
    let Host { state, lent } = case.host;
    let broad = lent.store.len() > 3 * SHARE && !random.once_in(8);
    let call = read_call(&case.text).filter(|_| case.display.is_none());
    if broad || is_heavy(random, &state, &lent.store, call) {
        return None;
    }
    let mut columns = Columns::of_store(&lent.store);
    if random.once_in(4) {
        columns.lengthen(random);
    }
    let due = state.settings.lines as usize * SHARE;
    if random.once_in(30) && (1..=columns.length()).contains(&due) {
        columns.cut_one(random, due - 1);
    }
    let loan = Loan {
        state,
        columns,
        sent: lent.sent,
        area: case.area,
    };
    Some(HostQuestion::of_call(loan, case.text, case.display))
}

/// Host-made journal calls, so many of them, no sort far above the others.
pub(super) fn host_calls(
    random: &mut Random,
    count: usize,
    tally: &mut Tally,
) -> Vec<HostQuestion> {
    let mut questions = Vec::new();
    while questions.len() < count {
        let case = host_case(random);
        if case.display.is_some() {
            continue;
        }
        let question = host_question(random, case);
        questions.extend(question.filter(|asked| tally.takes(asked.sort, count, JOURNAL_SORTS)));
    }
    questions
}

/// Host-made calls of displays of one kind, likewise.
pub(super) fn display_calls(
    random: &mut Random,
    wish: Wish,
    count: usize,
    tally: &mut Tally,
) -> Vec<HostQuestion> {
    let mut questions = Vec::new();
    while questions.len() < count {
        let mut case = host_case(random);
        let aimed = aimed_display_call(random, &case.host.state);
        let call = case.display.unwrap_or(aimed);
        if call.wish != wish {
            continue;
        }
        case.display = Some(call);
        let question = host_question(random, case);
        questions.extend(question.filter(|asked| tally.takes(asked.sort, count, DISPLAY_SORTS)));
    }
    questions
}

/// Host-made calls on states at the edges, one edge after the other from some edge on; enough calls
/// have all.
pub(super) fn edge_calls(
    random: &mut Random,
    count: usize,
    tally: &mut Tally,
) -> Vec<HostQuestion> {
    let edges = edges();
    let start = random.below(edges.len() as u64) as usize;
    let mut questions = Vec::new();
    for &edge in edges.iter().cycle().skip(start).take(count) {
        let question = edge_question(random, edge);
        tally.note(question.sort);
        questions.push(question);
    }
    if count >= edges.len() {
        let missing = missing_edges(&questions);
        assert!(missing.is_empty(), "no call at {missing:?}");
    }
    questions
}

/// A call at an edge, with no short store, so that refusal 4 is not passed by; most often on few lines,
/// which antt reads quickly.
fn edge_question(random: &mut Random, edge: Edge) -> HostQuestion {
    loop {
        let cases = [(); 3].map(|()| edge_case(random, edge));
        let least = cases
            .into_iter()
            .min_by_key(|case| case.host.lent.store.len());
        let question = least.and_then(|case| host_question(random, case));
        if let Some(mut question) = question {
            if question.left.answer != Refusal::StoreShort as u32 {
                question.sort = edge.name();
                return question;
            }
        }
    }
}

/// The edges that no question's state is at with the answer that is due there.
fn missing_edges(questions: &[HostQuestion]) -> Vec<Edge> {
    let is_asked = |edge: &Edge| {
        questions.iter().any(|asked| {
            let shapeless = asked.left.answer == Refusal::OutOfShape as u32;
            edge.is_in(&asked.loan.state) && shapeless == edge.refusal().is_some()
        })
    };
    edges().into_iter().filter(|edge| !is_asked(edge)).collect()
}

/// A journal's settings line and its other lines.
fn journal_lines(bytes: &[u8]) -> Vec<&[u8]> {
    let mut lines = Vec::new();
    let mut rest = bytes;
    while !rest.is_empty() {
        let line = next_line(rest);
        rest = &rest[line.len()..];
        lines.push(line);
    }
    lines
}

/// An input of one of these kinds that opens, with the state that its opening leaves.
fn some_input(
    random: &mut Random,
    mode: Mode,
    kinds: &[Kind],
    calls: u64,
    lines: u32,
) -> (State, Vec<u8>) {
    loop {
        let bytes = input_for(mode, random.pick(kinds), random.bits(), calls);
        match open(next_line(&bytes), &mut Lent::zeroed()) {
            Ok(state) if state.settings.lines <= lines => return (state, bytes),
            _ => {}
        }
    }
}

/// The calls of one journal that are asked in a row.
const STRETCH: usize = 10;
/// The lines in which a filling journal most often meets refusal 15.
const FILLED: usize = 1_200;

/// The lines of an input, and the place from which on a stretch is asked; of every third input, about the
/// first refusal 15. Displays call, but for every sixth: there nothing is ever given up.
fn some_stretch(random: &mut Random, number: usize) -> (State, Vec<Vec<u8>>, usize) {
    let most = random.pick(&[2, 3, 3, 3, 8]);
    let any = random.below(300) as usize;
    let filling = number.is_multiple_of(3);
    let mode = if number.is_multiple_of(6) {
        Mode::Merge
    } else {
        Mode::Console
    };
    let (kinds, calls): (&[Kind], usize) = if filling {
        (&[Kind::Filling], FILLED)
    } else {
        let kinds = &[Kind::Day, Kind::Nasty, Kind::Nasty, Kind::Malformed];
        (kinds, any + STRETCH)
    };
    let (state, bytes) = some_input(random, mode, kinds, calls as u64, most);
    let lines: Vec<Vec<u8>> = journal_lines(&bytes)[1..]
        .iter()
        .map(|line| line.to_vec())
        .collect();
    let (mut node, mut lent) = (state.clone(), Lent::zeroed());
    let mut lacks_places = |line: &Vec<u8>| {
        let input = Input::of_line(line);
        make(&mut node, &mut lent, input, &mut [0; AREA_BYTES]).0 == Refusal::PlacesTaken as u32
    };
    let full = filling.then(|| lines.iter().position(&mut lacks_places));
    let passed = full.flatten().map_or(any, |place| place - STRETCH / 2);
    (state, lines, passed)
}

/// Stretches of journals with displays' calls among the lines, each call on what the one before it left.
pub(super) fn journal_calls(
    random: &mut Random,
    count: usize,
    tally: &mut Tally,
) -> Vec<HostQuestion> {
    let mut questions: Vec<HostQuestion> = Vec::new();
    for number in 0.. {
        if questions.len() >= count {
            break;
        }
        let (mut state, lines, passed) = some_stretch(random, number);
        let places = state.settings.lines as usize * SHARE + random.pick(&[0, 0, 1]);
        let mut lent = Lent::zeroed();
        lent.store.resize(places, Reading::ZERO);
        let mut area: Vec<u8> = (0..AREA_BYTES).map(|_| random.bits() as u8).collect();
        let passed = passed.min(lines.len());
        for line in &lines[..passed] {
            make(&mut state, &mut lent, Input::of_line(line), &mut area);
        }
        let mut loan = Loan {
            state,
            columns: Columns::of_store(&lent.store),
            sent: lent.sent,
            area,
        };
        for line in lines[passed..].iter().take(STRETCH) {
            let question = HostQuestion::of_call(loan, line.clone(), read_display_call(line));
            loan = question.left.loan.clone();
            if questions.len() < count {
                tally.note(question.sort);
                questions.push(question);
            }
        }
    }
    questions
}

/// Calls on nodes: host-made in shape, and stretches of journals.
pub(super) fn node_calls(
    random: &mut Random,
    count: usize,
    tally: &mut Tally,
) -> Vec<NodeQuestion> {
    let mut questions = Vec::new();
    while questions.len() < count / 2 {
        let host = host_state(random);
        let store = &host.lent.store;
        let mut call = fitting_call(random, &host.state, store);
        for _ in 0..random.pick(&[0, 0, 1, 2]) {
            spoil_call(random, &host.state, store, &mut call);
        }
        if is_heavy(random, &host.state, store, Some(call)) {
            continue;
        }
        let question = NodeQuestion::ask(host.state, host.lent, call);
        if tally.takes(question.sort, count / 2, JOURNAL_SORTS) {
            questions.push(question);
        }
    }
    while questions.len() < count {
        play_nodes(random, count, tally, &mut questions);
    }
    questions
}

/// The calls of one journal that have the form, on nodes.
fn play_nodes(
    random: &mut Random,
    count: usize,
    tally: &mut Tally,
    questions: &mut Vec<NodeQuestion>,
) {
    let calls = 20 + random.below(300);
    let kinds = [Kind::Day, Kind::Nasty, Kind::Nasty, Kind::Malformed];
    let (mut state, bytes) = some_input(random, Mode::Merge, &kinds, calls, LINES as u32);
    let mut lent = Lent::zeroed();
    for line in &journal_lines(&bytes)[1..] {
        let Some(call) = read_call(line) else {
            continue;
        };
        let heavy = is_heavy(random, &state, &lent.store, Some(call));
        let question = NodeQuestion::ask(state, lent, call);
        state = question.after.clone();
        lent = question.lent_after.clone();
        if !heavy && questions.len() < count && random.once_in(calls / 20) {
            tally.note(question.sort);
            questions.push(question);
        }
    }
}

/// Openings with texts and stores of every kind, no sort far above the others.
pub(super) fn openings(random: &mut Random, count: usize, tally: &mut Tally) -> Vec<HostQuestion> {
    let mut questions = Vec::new();
    while questions.len() < count {
        let host = host_state(random);
        let text = settings_text(random);
        let lines = read_settings(&text).map_or(2, |settings| settings.lines);
        let due = lines as usize * SHARE;
        let places = random.pick(&[due, due, due + 1, due + 200, due - 1, 0]);
        let Lent {
            mut store,
            mut sent,
        } = host.lent;
        store.resize(places, Reading::ZERO);
        if random.once_in(8) {
            sent.truncate(random.pick(&[0, SENT_BYTES - RECORD_BYTES, SENT_BYTES - 1]));
        }
        let mut columns = Columns::of_store(&store);
        if random.once_in(2) {
            columns.lengthen(random);
        }
        if random.once_in(8) {
            columns.cut_one(random, due - 1);
        }
        let loan = Loan {
            state: host.state,
            columns,
            sent,
            area: Vec::new(),
        };
        let question = HostQuestion::of_opening(loan, text);
        if tally.takes(question.sort, count, OPENING_SORTS) {
            questions.push(question);
        }
    }
    questions
}

#[cfg(test)]
mod tests {
    use super::*;

    /// As many calls as there are edges are at each of them; without those that are refused, every edge
    /// past a bound is missing.
    #[test]
    fn every_edge_is_asked() {
        for seed in 0..5 {
            let (mut random, mut tally) = (Random::new(seed), Tally::default());
            let mut questions = edge_calls(&mut random, edges().len(), &mut tally);
            assert_eq!(missing_edges(&questions), []);
            questions.retain(|asked| asked.left.answer != Refusal::OutOfShape as u32);
            let past = edges().into_iter().filter(|edge| edge.refusal().is_some());
            assert_eq!(missing_edges(&questions), past.collect::<Vec<Edge>>());
        }
    }
}
