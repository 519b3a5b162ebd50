//! The equations in antt's writing, one for each question on nodes, numbers and texts.

use super::literal::{bytes, integer, spelled_list};
use super::marks::Marks;
use super::question::NodeQuestion;
use super::value;
use crate::generate::Host;
use crate::node::mean;
use crate::refusal::answer;
use crate::text::{read_call, read_settings};

/// The text as a comment can show it, cut if it is long.
pub(super) fn shown(text: &[u8]) -> String {
    let mut shown: String = String::from_utf8_lossy(text).escape_default().collect();
    shown.truncate(160);
    shown
}

pub(super) fn definition(name: &str, kind: &str, body: &str) -> String {
    format!("abbrev {name} : {kind}\n{name} = {body}\n\n")
}

/// A call on a node.
pub(super) fn of_node(number: usize, question: &NodeQuestion) -> String {
    let (case, name) = (format!("case_{number}"), format!("call_{number}"));
    let body = format!(
        "record {{ settings = {}; node = {}; call = {}; answer = {}; outcome = record {{ node = {}; records = {} }} }}",
        value::settings(&question.state.settings),
        value::node(&question.state, &question.lent.store),
        value::call(&question.call),
        question.answer,
        value::node(&question.after, &question.lent_after.store),
        value::records(&question.records),
    );
    let mut text = format!("-- {}\n", question.sort);
    text += &definition(&case, "NodeCase", &body);
    text += &format!("{name} : on_node {case} ≡ []\nunfolding on_node\n{name} = refl\n\n");
    text
}

/// The mean of so many values with this sum.
pub(super) fn of_mean(number: usize, sum: i64, count: u32) -> String {
    format!(
        "-- {sum}/{count}\nmean_{number} : mean_of ({}) {count} ≡ {}\nunfolding mean_of\nmean_{number} = refl\n\n",
        integer(sum),
        integer(mean(sum, count)),
    )
}

/// The next marked place from one on, and how many are marked.
pub(super) fn of_marks(number: usize, search: &Marks) -> String {
    let next = match search.next() {
        Some(place) => format!("Some {place}"),
        None => "None".to_string(),
    };
    let (from, words) = (search.from, spelled_list(&search.words));
    let found = format!(
        "record {{ next = {next}; count = {} }}",
        search.places().len()
    );
    format!(
        "-- the next mark from {from} on\nmark_{number} : marked_in ({words}) {from} ≡ {found}\nunfolding marked_in\nmark_{number} = refl\n\n"
    )
}

/// How many steps a node needs.
pub(super) fn of_steps(number: usize, host: &Host, steps: u32) -> String {
    format!(
        "-- {}, c {}\nsteps_{number} : steps_of ({}) ({}) ≡ {steps}\nunfolding steps_of\nsteps_{number} = refl\n\n",
        host.state.word.name(),
        host.state.c,
        value::settings(&host.state.settings),
        value::node(&host.state, &host.lent.store),
    )
}

/// What a journal line's text is read as.
pub(super) fn of_call_text(number: usize, text: &[u8]) -> String {
    let fields = match read_call(text) {
        Some(call) => vec![
            0,
            u64::from(call.now),
            u64::from(call.line),
            u64::from(call.kind),
            u64::from(call.id),
            u64::from(call.time),
            u64::from(call.meter),
            u64::from(call.value as u32),
        ],
        None => vec![6],
    };
    of_text(number, text, "call_fields", "read_call", &fields)
}

/// What a settings text is read as.
pub(super) fn of_settings_text(number: usize, text: &[u8]) -> String {
    let read = read_settings(text);
    let mut fields = vec![u64::from(answer(&read))];
    if let Ok(settings) = read {
        fields.extend([settings.lines, settings.bucket].map(u64::from));
        fields.extend([settings.window, settings.hold].map(u64::from));
        fields.extend([settings.low, settings.high].map(|limit| u64::from(limit as u32)));
        fields.push(u64::from(settings.displays));
    }
    of_text(number, text, "settings_fields", "read_settings", &fields)
}

fn of_text(number: usize, text: &[u8], fields: &str, reader: &str, expected: &[u64]) -> String {
    format!(
        "-- {}\ntext_{number} : {fields} ({reader} ({})) ≡ {}\nunfolding {reader}\ntext_{number} = refl\n\n",
        shown(text),
        bytes(text),
        spelled_list(expected),
    )
}
