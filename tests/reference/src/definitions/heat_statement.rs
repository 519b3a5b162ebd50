//! The equations for parts of heat balances in antt's writing; every second or fourth question is
//! also asked with a wrong answer, which a comparison must find.

use super::heats::{BoxQuestion, MeterHeat, PaidQuestion};
use super::literal::{bytes, integer, spelled_list};
use super::statement::definition;
use super::value;

/// The numbers from which on the parts that differ are told, each with its meter's number.
const OPEN: u64 = 1_000;
const KEPT: u64 = 2_000;
const PAID: u64 = 3_000;

/// What some meters have.
fn meter_heats(heats: &[MeterHeat]) -> String {
    let mut text = String::new();
    for (meter, heat) in heats {
        text.push_str(&format!(
            "record {{ meter = {meter}; heat = record {{ count = {}; sum = {} }} }} ∷ ",
            heat.count,
            integer(heat.sum),
        ));
    }
    text + "[]"
}

/// A wrong answer, with what a comparison must find: a base and the meter's number.
fn spoiled_heat(number: usize, heats: &[MeterHeat], base: u64) -> (u64, Vec<MeterHeat>) {
    let mut heats = heats.to_vec();
    let place = number % heats.len();
    let (meter, heat) = &mut heats[place];
    if number.is_multiple_of(2) {
        heat.count += 1;
    } else {
        heat.sum -= 1;
    }
    (base + u64::from(*meter), heats)
}

/// What is open and what is kept in a state and store.
pub(super) fn of_box(number: usize, question: &BoxQuestion) -> String {
    let state = &question.host.state;
    let mut text = format!("-- {}, c {}\n", state.word.name(), state.c);
    let (handed, columns) = (format!("state_{number}"), format!("columns_{number}"));
    text += &definition(&handed, "State", &value::state(state));
    text += &definition(&columns, "Columns", &question.columns.literal());
    let handed = format!("state = {handed}; lent = lent_of {columns} []");
    let mut ask = |name: &str, open: &[MeterHeat], kept: &[MeterHeat], parts: &str| {
        let (open, kept) = (meter_heats(open), meter_heats(kept));
        let case = format!("{name}_case_{number}");
        let body = format!("record {{ {handed}; open_due = {open}; kept_due = {kept} }}");
        text += &definition(&case, "BoxCase", &body);
        text += &format!("{name}_{number} : on_heats {case} ≡ {parts}\nunfolding on_heats_quickly\n{name}_{number} = by_rows {case} ({parts}) refl\n\n");
    };
    ask("heat", &question.open, &question.kept, "[]");
    if number.is_multiple_of(4) {
        let (part, open) = spoiled_heat(number / 4, &question.open, OPEN);
        ask("control", &open, &question.kept, &spelled_list(&[part]));
    }
    if number % 4 == 2 {
        let (part, kept) = spoiled_heat(number / 4, &question.kept, KEPT);
        ask("control", &question.open, &kept, &spelled_list(&[part]));
    }
    text
}

/// What some stretches of bytes pay.
pub(super) fn of_paid(number: usize, question: &PaidQuestion) -> String {
    let mut records = String::new();
    for stretch in &question.records {
        records.push_str(&format!("{} ∷ ", bytes(stretch)));
    }
    let mut text = format!("-- {} stretches of bytes\n", question.records.len());
    let mut ask = |name: &str, paid: &[MeterHeat], parts: &str| {
        let (paid, case) = (meter_heats(paid), format!("{name}_case_{number}"));
        let body = format!("record {{ records = {records}[]; paid_due = {paid} }}");
        text += &definition(&case, "PaidCase", &body);
        text += &format!("{name}_{number} : on_paid {case} ≡ {parts}\nunfolding on_paid\n{name}_{number} = refl\n\n");
    };
    ask("heat", &question.paid, "[]");
    if number.is_multiple_of(4) {
        let (part, paid) = spoiled_heat(number / 4, &question.paid, PAID);
        ask("control", &paid, &spelled_list(&[part]));
    }
    text
}
