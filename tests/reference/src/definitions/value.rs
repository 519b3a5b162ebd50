//! States, nodes, calls and records in antt's writing.

use super::literal::{integer, list, signed_longs, signed_words, spelled_list, words};
use crate::node::{Head, Meter, Operator, Reading, State, Word, SHARE};
use crate::record::Record;
use crate::text::{Call, Settings};

fn phase(word: Word) -> &'static str {
    match word {
        Word::Stable => "Phase.Stable",
        Word::Failure => "Phase.Failure",
        Word::Correcting => "Phase.Correcting",
    }
}

pub(super) fn settings(settings: &Settings) -> String {
    format!(
        "record {{ lines = {}; bucket = {}; window = {}; hold = {}; low = {}; high = {}; displays = {} }}",
        settings.lines,
        settings.bucket,
        settings.window,
        settings.hold,
        integer(i64::from(settings.low)),
        integer(i64::from(settings.high)),
        settings.displays,
    )
}

fn operator(operator: &Operator) -> String {
    let meters: Vec<u128> = operator
        .meters
        .iter()
        .map(|meter| {
            let (count, last) = (u128::from(meter.count), u128::from(meter.last as u32));
            u128::from(meter.sum as u64) | count << 64 | last << 96
        })
        .collect();
    format!(
        "record {{ meters = {}; number = {} }}",
        list("meters", &meters, 32),
        operator.newest
    )
}

fn heads(heads: &[Head]) -> String {
    let packed: Vec<u128> = heads
        .iter()
        .map(|head| {
            let (last, stable) = (u128::from(head.last_id), u128::from(head.last_stable_id));
            u128::from(head.boundary) | last << 32 | stable << 64 | u128::from(head.kept) << 96
        })
        .collect();
    list("heads", &packed, 32)
}

/// The fields that what is held and a node have alike.
fn common(state: &State) -> String {
    format!(
        "operator = {}; checkpoint = {}; clock = record {{ 0 = {} }}; c = {}; p = {}; phase = {}",
        operator(&state.operator),
        operator(&state.checkpoint),
        state.clock,
        state.c,
        state.p,
        phase(state.word),
    )
}

/// An operator in columns, as a state has it.
fn loaded(operator: &Operator) -> String {
    let meters = &operator.meters;
    format!(
        "record {{ sums = {}; counts = {}; lasts = {}; number = {} }}",
        signed_longs(&column(meters, |meter| meter.sum)),
        words(&column(meters, |meter| meter.count)),
        signed_words(&column(meters, |meter| meter.last)),
        operator.newest,
    )
}

/// A state as its host hands it over.
pub(super) fn state(state: &State) -> String {
    format!(
        "record {{ settings = {}; clock = record {{ 0 = {} }}; c = {}; p = {}; phase = {}; heads = {}; acknowledged = {}; operator = {}; checkpoint = {}; all_heads = refl; all_displays = refl }}",
        settings(&state.settings),
        state.clock,
        state.c,
        state.p,
        phase(state.word),
        heads(&state.heads),
        spelled_list(&state.acknowledged),
        loaded(&state.operator),
        loaded(&state.checkpoint),
    )
}

/// One number of each meter.
fn column<T>(meters: &[Meter], number: fn(&Meter) -> T) -> Vec<T> {
    meters.iter().map(number).collect()
}

/// What a state holds, as the definitions have it.
pub(super) fn held(state: &State) -> String {
    format!(
        "record {{ {}; acknowledged = {}; heads = {}; settings = {} }}",
        common(state),
        spelled_list(&state.acknowledged),
        heads(&state.heads),
        settings(&state.settings)
    )
}

fn readings(kept: &[Reading]) -> String {
    let mut packed = String::new();
    for reading in kept.iter().rev() {
        packed.push_str(&format!(
            "{:02x}{:02x}{:08x}{:08x}{:08x}{:08x}",
            reading.meter,
            reading.kind,
            reading.arrival,
            reading.value as u32,
            reading.time,
            reading.id
        ));
    }
    if kept.is_empty() {
        "[]".to_string()
    } else {
        format!("readings {} 0x{packed}", kept.len())
    }
}

/// The node of a state and a store in shape.
pub(super) fn node(state: &State, store: &[Reading]) -> String {
    let mut lines = String::new();
    for (line, head) in state.lines().iter().enumerate() {
        let start = line * SHARE;
        lines.push_str(&format!(
            "record {{ boundary = record {{ 0 = {} }}; last_id = {}; last_stable_id = {}; kept = {} }} ∷ ",
            head.boundary,
            head.last_id,
            head.last_stable_id,
            readings(&store[start..start + head.kept as usize]),
        ));
    }
    format!(
        "record {{ {}; acknowledged = {}; lines = {lines}[] }}",
        common(state),
        spelled_list(state.displays()),
    )
}

pub(super) fn call(call: &Call) -> String {
    format!(
        "record {{ now = record {{ 0 = {} }}; id = {}; time = record {{ 0 = {} }}; value = {}; line = {}; kind = {}; meter = {} }}",
        call.now,
        call.id,
        call.time,
        integer(i64::from(call.value)),
        call.line,
        call.kind,
        call.meter,
    )
}

pub(super) fn records(records: &[Record]) -> String {
    let mut text = String::new();
    for record in records {
        text.push_str(&format!(
            "record {{ sum = {}; id = {}; time = record {{ 0 = {} }}; count = {}; mean = {}; last = {}; kind = {}; meter = {} }} ∷ ",
            integer(record.sum),
            record.id,
            record.time,
            record.count,
            integer(i64::from(record.mean)),
            integer(i64::from(record.last)),
            record.kind,
            record.meter,
        ));
    }
    text + "[]"
}
