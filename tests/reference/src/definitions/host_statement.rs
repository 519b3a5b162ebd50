//! The equations for calls and openings on what a host lends, in antt's writing. Some questions are also
//! asked with a wrong answer, which a comparison must find.

use super::columns::Columns;
use super::literal::{bytes, spelled_list};
use super::question::{HostQuestion, Left};
use super::sent;
use super::statement::{definition, shown};
use super::value;
use crate::node::SENT_BYTES;
use crate::text::{spell_display_call, Wish};

/// One of so many is also asked with a wrong answer: journal calls, displays' calls, openings.
const JOURNAL_CONTROLS: usize = 6;
const DISPLAY_CONTROLS: usize = 3;
const OPENING_CONTROLS: usize = 4;
/// The places of the send-back store that are asked for at most, of those that a call or an opening
/// has changed; an opening is computed place by place from the store's first byte on.
const CALL_PLACES: usize = 72;
const OPENING_PLACES: usize = 6;

/// What stands under names of its own: what was lent.
fn lent(number: usize, question: &HostQuestion) -> String {
    let loan = &question.loan;
    let name = |part: &str| format!("{part}_{number}");
    definition(&name("state"), "State", &value::state(&loan.state))
        + &definition(&name("columns"), "Columns", &loan.columns.literal())
        + &definition(&name("places"), "ℕ", &sent::places(&loan.sent))
        + &definition(&name("area"), "List ℕ", &bytes(&loan.area))
}

/// What is left; columns and area by name where they are those that were lent.
fn due(number: usize, question: &HostQuestion, left: &Left, most: usize) -> String {
    let (before, after) = (&question.loan, &left.loan);
    let columns = if after.columns == before.columns {
        format!("columns_{number}")
    } else {
        after.columns.literal()
    };
    let area = if after.area == before.area {
        format!("area_{number}")
    } else {
        bytes(&after.area)
    };
    format!(
        "record {{ answer = {}; records = {}; state = {}; columns = {columns}; places = {}; behind = {}; area = {area} }}",
        left.answer,
        left.records,
        value::held(&after.state),
        sent::due(number, question, left, most),
        sent::behind(&after.sent),
    )
}

/// What is called with.
fn input(number: usize, question: &HostQuestion) -> String {
    match question.display {
        None => format!("Input.journal ({}) area_{number}", bytes(&question.text)),
        Some(call) => {
            let name = match call.wish {
                Wish::Acknowledge => "acknowledge",
                Wish::Fetch => "fetch",
            };
            format!("Input.{name} {} {} area_{number}", call.display, call.id)
        }
    }
}

/// A case and the theorem that it differs in these parts.
fn asked(number: usize, question: &HostQuestion, left: &Left, name: &str, parts: &str) -> String {
    let (loan, case) = (&question.loan, format!("{name}_case_{number}"));
    let common = format!(
        "state = state_{number}; columns = columns_{number}; input = {}; left = {}",
        input(number, question),
        due(number, question, left, CALL_PLACES),
    );
    let name = format!("{name}_{number}");
    if sent::is_short(&loan.sent) {
        let store = format!("cut {} places_{number}", loan.sent.len());
        let body = format!("record {{ {common}; sent = {store} }}");
        definition(&case, "ShortCase", &body)
            + &format!("{name} : on_short {case} ≡ {parts}\nunfolding on_short_quickly is_cut\n{name} = by_short {case} ({parts}) refl refl\n\n")
    } else {
        let behind = sent::behind(&loan.sent);
        let body = format!("record {{ {common}; places = places_{number}; behind = {behind} }}");
        definition(&case, "CallCase", &body)
            + &format!("{name} : on_call {case} ≡ {parts}\nunfolding on_call_quickly\n{name} = by_quickly {case} ({parts}) refl\n\n")
    }
}

/// A call on what a host lends: a journal call, an acknowledgement or a fetch.
pub(super) fn of_call(number: usize, question: &HostQuestion) -> String {
    let (name, text, controls) = match question.display {
        None => ("call", question.text.clone(), JOURNAL_CONTROLS),
        Some(call) => {
            let name = match call.wish {
                Wish::Acknowledge => "acknowledgement",
                Wish::Fetch => "fetch",
            };
            (name, spell_display_call(&call), DISPLAY_CONTROLS)
        }
    };
    let mut equations = format!("-- {}: {}\n", question.sort, shown(&text));
    equations += &lent(number, question);
    equations += &asked(number, question, &question.left, name, "[]");
    let wrong = spoiled(number / controls, &question.left);
    if let Some((part, left)) = wrong.filter(|_| number.is_multiple_of(controls)) {
        let parts = spelled_list(&[part]);
        equations += &asked(number, question, &left, "control", &parts);
    }
    equations
}

/// A wrong answer, with the number of the part in which it is wrong: a comparison must find it. Of the
/// twelve, the first two are for an opening too.
fn spoiled(number: usize, left: &Left) -> Option<(u64, Left)> {
    let mut left = left.clone();
    let loan = &mut left.loan;
    let Columns { ids, meters, .. } = &mut loan.columns;
    let part = match number % 12 {
        0 => {
            *loan.sent.iter_mut().take(SENT_BYTES).last()? ^= 1;
            21
        }
        1 => {
            loan.state.acknowledged[3] ^= 1;
            20
        }
        2 => {
            left.records += 1;
            2
        }
        3 => {
            *loan.area.last_mut()? ^= 1;
            19
        }
        4 => {
            left.answer += 1;
            1
        }
        5 => {
            loan.sent.push(0);
            (loan.sent.len() > SENT_BYTES).then_some(22)?
        }
        6 => {
            loan.state.clock ^= 1;
            4
        }
        7 => {
            loan.state.checkpoint.meters[63].last ^= 1;
            11
        }
        8 => {
            loan.state.heads[7].kept ^= 1;
            12
        }
        9 => {
            *ids.last_mut()? ^= 1;
            13
        }
        10 => {
            meters.pop()?;
            18
        }
        _ => {
            loan.state.operator.meters[0].sum ^= 1;
            9
        }
    };
    Some((part, left))
}

/// An opening on what a host lends.
pub(super) fn of_opening(number: usize, question: &HostQuestion) -> String {
    let loan = &question.loan;
    let store = if sent::is_short(&loan.sent) {
        format!("cut {} places_{number}", loan.sent.len())
    } else {
        format!("stocked places_{number} ({})", sent::behind(&loan.sent))
    };
    let body = |left: &Left| {
        format!(
            "record {{ state = state_{number}; columns = columns_{number}; sent = {store}; text = {}; left = {} }}",
            bytes(&question.text),
            due(number, question, left, OPENING_PLACES),
        )
    };
    let mut text = format!("-- {}: {}\n", question.sort, shown(&question.text));
    text += &lent(number, question);
    let mut ask = |name: &str, left: &Left, parts: &str| {
        let (case, name) = (format!("{name}_case_{number}"), format!("{name}_{number}"));
        text += &definition(&case, "OpeningCase", &body(left));
        text +=
            &format!("{name} : on_opening {case} ≡ {parts}\nunfolding on_opening_quickly\n{name} = by_meters {case} ({parts}) refl\n\n");
    };
    ask("opening", &question.left, "[]");
    let wrong = spoiled(number / OPENING_CONTROLS % 2, &question.left);
    if let Some((part, left)) = wrong.filter(|_| number.is_multiple_of(OPENING_CONTROLS)) {
        ask("control", &left, &spelled_list(&[part]));
    }
    text
}
