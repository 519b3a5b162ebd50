//! Texts to read: settings lines and journal lines, of the form and broken.

use super::tally::{sort_of_answer, Tally};
use crate::generate::{any_call, spoil_text, Random};
use crate::refusal::answer;
use crate::text::{has_form, read_settings, spell_call, write_settings, Settings};

/// The bytes that a text has at most; reading more takes antt long.
const TEXT_BYTES: usize = 6_000;

/// Settings texts, so many of them.
pub(super) fn settings_texts(random: &mut Random, count: usize, tally: &mut Tally) -> Vec<Vec<u8>> {
    let texts: Vec<Vec<u8>> = (0..count).map(|_| settings_text(random)).collect();
    for text in &texts {
        tally.note(sort_of_answer(answer(&read_settings(text))));
    }
    texts
}

/// Journal lines, so many of them.
pub(super) fn call_texts(random: &mut Random, count: usize, tally: &mut Tally) -> Vec<Vec<u8>> {
    let texts: Vec<Vec<u8>> = (0..count).map(|_| call_text(random)).collect();
    for text in &texts {
        tally.note(sort_of_answer(if has_form(text) { 0 } else { 6 }));
    }
    texts
}

/// A settings text: within the limits, one past them, at the widths, or broken.
pub(super) fn settings_text(random: &mut Random) -> Vec<u8> {
    let wide = Settings {
        lines: random.pick(&[0, 1, 2, 8, 9, u32::MAX]),
        bucket: random.pick(&[99, 100, 36_000, 36_001, u32::MAX]),
        window: random.pick(&[0, 1, 16, 17]),
        hold: random.pick(&[0, 864_000, 864_001]),
        low: random.signed_word(),
        high: random.signed_word(),
        displays: random.pick(&[0, 1, 4, 5, u32::MAX]),
    };
    let usual = Settings {
        lines: random.pick(&[1, 2, 3, 8]),
        bucket: random.pick(&[100, 600, 36_000]),
        window: random.pick(&[1, 16]),
        hold: random.pick(&[0, 50, 864_000]),
        low: random.pick(&[-1_000, 0, i32::MIN]),
        high: random.pick(&[0, 1_000, i32::MAX]),
        displays: random.pick(&[1, 2, 4]),
    };
    let mut text = write_settings(&random.pick(&[usual, usual, usual, wide]));
    if random.once_in(4) {
        text = spoil_text(random, &text);
    }
    text
}

/// A call's text: of the form, or broken once or more often.
fn call_text(random: &mut Random) -> Vec<u8> {
    let mut text = spell_call(&any_call(random));
    while random.once_in(2) {
        let spoilt = spoil_text(random, &text);
        if spoilt.len() <= TEXT_BYTES {
            text = spoilt;
        }
    }
    text
}
