//! Texts broken at the level of bytes, and journals with such lines among sound ones.

use std::io::{self, Write};

use super::aim::fitting_call;
use super::journal::Journal;
use super::nasty;
use super::random::Random;
use crate::playback::Mode;
use crate::text::{spell_call, write_settings, LINE_END};

/// Texts to put in the place of a number.
const NUMBERS: [&str; 24] = [
    "",
    "-0",
    "+1",
    "00",
    "01",
    "-1",
    "-",
    "0",
    "255",
    "256",
    "2147483647",
    "2147483648",
    "-2147483648",
    "-2147483649",
    "4294967295",
    "4294967296",
    "4294967297",
    "18446744073709551616",
    "1e3",
    "0x10",
    "1_0",
    " 1",
    "1 ",
    "-00",
];

/// Bytes that are often put in.
const BYTES: &[u8] = b"0123456789-+ =\t\r\n\0.,STBURPstlinekd\xFF\x80";

/// Writes a journal with broken lines; some seeds have a broken settings line.
pub(super) fn write(mode: Mode, seed: u64, lines: u64, output: &mut dyn Write) -> io::Result<()> {
    let mut random = Random::new(seed ^ 0x6D61_6C66_0000_0000);
    let mut settings = write_settings(&nasty::settings(&mut random, false));
    if random.once_in(6) {
        settings = spoil_text(&mut random, &settings);
    }
    let Some(mut journal) = Journal::open(mode, &settings, lines, random, output)? else {
        return Ok(());
    };
    while !journal.is_full() {
        let call = fitting_call(&mut journal.random, &journal.state, &journal.lent.store);
        let mut text = spell_call(&call);
        while journal.random.once_in(2) {
            text = spoil_text(&mut journal.random, &text);
        }
        if !journal.leaps(&text) || journal.rarely() {
            journal.put_text(&text)?;
        }
    }
    if journal.random.once_in(2) {
        journal.put_tail(b"now=4294967295 line=0 kind=P id=0 time=0 meter=0 value=0")?;
    }
    Ok(())
}

/// A text with one thing about it changed; it may by chance still have the form.
pub fn spoil_text(random: &mut Random, text: &[u8]) -> Vec<u8> {
    let mut spoilt = text.to_vec();
    if spoilt.is_empty() {
        return vec![random.pick(BYTES)];
    }
    let place = random.below(spoilt.len() as u64) as usize;
    match random.below(16) {
        0 | 1 => drop(spoilt.remove(place)),
        2 | 3 => spoilt.insert(place, random.pick(BYTES)),
        4 => spoilt[place] = random.pick(BYTES),
        5 => spoilt[place] = random.bits() as u8,
        6 => spoilt[place] ^= 1 << random.below(8),
        7 => spoilt.swap(place, text.len() - 1 - place),
        8 => spoilt.truncate(place),
        9..=11 => spoil_number(random, &mut spoilt, place),
        12 => spoil_end(random, &mut spoilt),
        13 => repeat_part(random, &mut spoilt, place),
        14 => spoilt = stuff(random),
        _ => spoilt[place].make_ascii_lowercase(),
    }
    spoilt
}

/// Puts another text in the place of the number behind the next equals sign.
fn spoil_number(random: &mut Random, text: &mut Vec<u8>, place: usize) {
    let behind = text[place..].iter().position(|&byte| byte == b'=');
    let start = behind.map_or(text.len(), |offset| place + offset + 1);
    let number = |byte: &&u8| byte.is_ascii_digit() || **byte == b'-';
    let length = text[start..].iter().take_while(number).count();
    let digits = vec![b'0' + random.below(10) as u8; random.between(1, 400) as usize];
    let other = match random.below(8) {
        0 => digits,
        1 => [b"1", &digits[..]].concat(),
        _ => random.pick(&NUMBERS).as_bytes().to_vec(),
    };
    text.splice(start..start + length, other);
}

/// Changes what stands at the end of a line.
fn spoil_end(random: &mut Random, text: &mut Vec<u8>) {
    let end = random.pick(&[&b""[..], b"\r\n", b" \n", b"\n ", b"\n\n", b"\0\n", b"0\n"]);
    if text.last() == Some(&LINE_END) {
        text.pop();
    }
    text.extend_from_slice(end);
}

/// Says a part of the text twice, or very often.
fn repeat_part(random: &mut Random, text: &mut Vec<u8>, place: usize) {
    let part = text[place..].to_vec();
    let times = random.pick(&[1, 1, 1, 2, 40]);
    for _ in 0..times {
        text.splice(place..place, part.iter().copied());
    }
}

/// A line of one byte over and over, of some length about those that matter.
fn stuff(random: &mut Random) -> Vec<u8> {
    let length = random.pick(&[
        0, 1, 88, 89, 90, 101, 102, 103, 121, 122, 123, 127, 128, 129, 5_000,
    ]);
    let mut text = vec![random.pick(BYTES); length];
    text.push(LINE_END);
    text
}
