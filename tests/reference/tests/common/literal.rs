//! The call once more, slowly: over lists, sorted, and with numbers that cannot overflow.

use reference::node::{Input, Lent, Meter, Reading, State, Word};
use reference::text::Call;

use super::literal_display::{accept_display, lacks_places, refused_display, shape_of_displays};
use super::literal_step::accept;

/// What a call leaves and returns.
#[derive(Clone, Debug, PartialEq, Eq)]
pub struct Outcome {
    pub state: State,
    pub lent: Lent,
    pub area: Vec<u8>,
    pub answer: u32,
    pub records: usize,
}

/// One call on copies of everything.
pub fn literal_call(state: &State, lent: &Lent, input: Input, area: &[u8]) -> Outcome {
    let mut outcome = Outcome {
        state: state.clone(),
        lent: lent.clone(),
        area: area.to_vec(),
        answer: 0,
        records: 0,
    };
    let places = 256 * i128::from(state.settings.lines);
    outcome.answer = if (lent.store.len() as i128) < places || lent.sent.len() < 16_384 {
        3
    } else if !shape(state, lent) {
        4
    } else if area.len() < 2_080 {
        5
    } else {
        0
    };
    if outcome.answer == 0 {
        match input {
            Input::Journal(text) => journal_call(&mut outcome, text),
            Input::Display(call) => {
                outcome.answer = refused_display(state, &call);
                if outcome.answer == 0 {
                    accept_display(&mut outcome, &call);
                }
            }
        }
    }
    outcome
}

fn journal_call(outcome: &mut Outcome, text: &[u8]) {
    let Some(call) = parse(text) else {
        outcome.answer = 6;
        return;
    };
    outcome.answer = refused(&outcome.state, &outcome.lent.store, &call);
    if outcome.answer == 0 && lacks_places(outcome, &call) {
        outcome.answer = 15;
    }
    if outcome.answer == 0 {
        accept(outcome, &call);
    }
}

/// Reads loosely, writes what was read, and asks for the very same text.
fn parse(text: &[u8]) -> Option<Call> {
    let text = std::str::from_utf8(text).ok()?;
    let words: Vec<&str> = text.split([' ', '=', '\n']).collect();
    if words.len() != 15 || words[5].len() != 1 || !"STBURP".contains(words[5]) {
        return None;
    }
    let call = Call {
        now: words[1].parse().ok()?,
        line: words[3].parse().ok()?,
        kind: words[5].as_bytes()[0],
        id: words[7].parse().ok()?,
        time: words[9].parse().ok()?,
        meter: words[11].parse().ok()?,
        value: words[13].parse().ok()?,
    };
    let again = format!(
        "now={} line={} kind={} id={} time={} meter={} value={}\n",
        call.now, call.line, words[5], call.id, call.time, call.meter, call.value
    );
    (again == text).then_some(call)
}

/// The kept readings of a line counted from 0.
pub fn kept(state: &State, store: &[Reading], line: usize) -> Vec<Reading> {
    let count = state.heads[line].kept as usize;
    store[256 * line..256 * line + count].to_vec()
}

fn shape(state: &State, lent: &Lent) -> bool {
    let settings = &state.settings;
    let limits = settings.lines >= 1
        && settings.lines <= 8
        && settings.bucket >= 100
        && settings.bucket <= 36_000
        && settings.window >= 1
        && settings.window <= 16
        && settings.hold <= 864_000
        && settings.low <= settings.high
        && settings.displays >= 1
        && settings.displays <= 4;
    limits
        && (0..settings.lines as usize).all(|line| shape_of_line(state, &lent.store, line))
        && shape_of_buckets(state)
        && shape_of_displays(state, &lent.sent)
        && state.operator.meters.iter().all(shape_of_meter)
        && state.checkpoint.meters.iter().all(shape_of_meter)
}

fn shape_of_buckets(state: &State) -> bool {
    let (c, p) = (i128::from(state.c), i128::from(state.p));
    let stable = i128::from(state.checkpoint.newest);
    let newest = i128::from(state.operator.newest);
    let ends = c <= p && p <= 42_949_673;
    let words = match state.word {
        Word::Failure => p != c,
        Word::Stable | Word::Correcting => p <= c,
    };
    let numbers = stable <= 64 * c && newest <= 64 * p && newest >= stable;
    let tied = p != c || newest <= stable;
    ends && words && numbers && tied
}

fn shape_of_meter(meter: &Meter) -> bool {
    let (count, sum) = (i128::from(meter.count), i128::from(meter.sum));
    count <= 32_768 && sum >= -(1 << 31) * count && sum <= ((1 << 31) - 1) * count
}

fn shape_of_line(state: &State, store: &[Reading], line: usize) -> bool {
    let head = &state.heads[line];
    if head.kept > 256 || head.last_stable_id > head.last_id {
        return false;
    }
    let mut before: i128 = -1;
    for reading in kept(state, store, line) {
        let id = i128::from(reading.id);
        if !b"ST".contains(&reading.kind) || reading.meter > 63 || id <= before {
            return false;
        }
        before = id;
    }
    true
}

fn refused(state: &State, store: &[Reading], call: &Call) -> u32 {
    let kind = call.kind as char;
    let takes = |kinds: &str| kinds.contains(kind);
    let line_fits = if kind == 'P' {
        call.line == 0
    } else {
        call.line >= 1 && u32::from(call.line) <= state.settings.lines
    };
    let rows = [
        (7, call.now < state.clock),
        (8, !line_fits),
        (9, !takes("STU") && call.id != 0),
        (9, !takes("STB") && call.time != 0),
        (9, !takes("ST") && (call.meter != 0 || call.value != 0)),
    ];
    match rows.iter().find(|row| row.1) {
        Some(row) => row.0,
        None if kind == 'P' => 0,
        None => refused_by_line(state, store, call),
    }
}

fn refused_by_line(state: &State, store: &[Reading], call: &Call) -> u32 {
    let takes = |kinds: &str| kinds.contains(call.kind as char);
    let line = usize::from(call.line) - 1;
    let head = state.heads[line];
    let readings = kept(state, store, line);
    let (id, last) = (i128::from(call.id), i128::from(head.last_id));
    let below = id < i128::from(head.last_stable_id);
    let tentative = readings.iter().any(|reading| reading.kind == b'T');
    let rows = [
        (10, takes("ST") && call.meter > 63),
        (11, takes("ST") && id != last + 1),
        (11, takes("U") && (below || id > last)),
        (12, takes("STB") && call.time < head.boundary),
        (13, takes("SBR") && tentative),
        (14, takes("ST") && readings.len() >= 256),
    ];
    rows.iter().find(|row| row.1).map_or(0, |row| row.0)
}
