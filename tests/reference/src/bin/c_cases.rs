//! Writes cases for the two calls that C has, with the reference's answers: c-cases SEED COUNT.
//!
//! A case is the byte L or R, then its numbers, four bytes each with the low byte first, and then its
//! bytes. L: whether the text has the form, its length; the text. R: the answer, the length written,
//! the record's length, the area's length, the byte that the area is full of before the call; the
//! record, and the area as the call must leave it.

use std::io::{self, BufWriter, Write};
use std::process::ExitCode;

use reference::generate::{any_bytes, any_call, any_record_bytes, spoil_text, Random};
use reference::record::{decode, record_text, RECORD_TEXT_LONGEST};
use reference::refusal::answer;
use reference::text::{has_form, spell_call, JOURNAL_LONGEST};

const USAGE: &str = "usage: c-cases SEED COUNT";

fn main() -> ExitCode {
    let arguments: Vec<String> = std::env::args().skip(1).collect();
    let Some((seed, count)) = read(&arguments) else {
        eprintln!("{USAGE}");
        return ExitCode::from(2);
    };
    match write_cases(seed, count) {
        Ok(()) => ExitCode::SUCCESS,
        Err(error) => {
            eprintln!("c-cases: {error}");
            ExitCode::FAILURE
        }
    }
}

fn read(arguments: &[String]) -> Option<(u64, u64)> {
    let [seed, count] = arguments else {
        return None;
    };
    Some((seed.parse().ok()?, count.parse().ok()?))
}

fn write_cases(seed: u64, count: u64) -> io::Result<()> {
    let mut random = Random::new(seed);
    let mut output = BufWriter::new(io::stdout().lock());
    for number in 0..count {
        if number % 2 == 0 {
            write_line_case(&mut random, &mut output)?;
        } else {
            write_record_case(&mut random, &mut output)?;
        }
    }
    output.flush()
}

fn write_numbers(output: &mut dyn Write, numbers: &[usize]) -> io::Result<()> {
    for &number in numbers {
        let word = u32::try_from(number).expect("lengths fit 32 bits");
        output.write_all(&word.to_le_bytes())?;
    }
    Ok(())
}

fn write_line_case(random: &mut Random, output: &mut dyn Write) -> io::Result<()> {
    let text = any_text(random);
    output.write_all(b"L")?;
    write_numbers(output, &[usize::from(has_form(&text)), text.len()])?;
    output.write_all(&text)
}

/// A journal line, one with faults, lines joined, or any bytes.
fn any_text(random: &mut Random) -> Vec<u8> {
    let mut text = any_line(random);
    match random.below(8) {
        0..=2 => {}
        3 | 4 => text = spoil_text(random, &text),
        5 => {
            let spoilt = spoil_text(random, &text);
            text = spoil_text(random, &spoilt);
        }
        6 => text.extend(any_line(random)),
        _ => text = any_bytes(random, 2 * JOURNAL_LONGEST as u64),
    }
    text
}

fn any_line(random: &mut Random) -> Vec<u8> {
    spell_call(&any_call(random))
}

fn write_record_case(random: &mut Random, output: &mut dyn Write) -> io::Result<()> {
    let record = any_record_bytes(random);
    let fill = random.bits() as u8;
    let mut area = vec![fill; any_area_length(random, &record)];
    let outcome = record_text(&record, &mut area);
    let answer = answer(&outcome) as usize;
    let written = outcome.unwrap_or(0);
    output.write_all(b"R")?;
    let numbers = [answer, written, record.len(), area.len(), usize::from(fill)];
    write_numbers(output, &numbers)?;
    output.write_all(&record)?;
    output.write_all(&area)
}

/// Lengths about that of the record's text, the longest and none at all.
fn any_area_length(random: &mut Random, record: &[u8]) -> usize {
    let mut room = [0; RECORD_TEXT_LONGEST];
    let length = decode(record).map_or(0, |_| record_text(record, &mut room).unwrap_or(0));
    let any = random.below(2 * RECORD_TEXT_LONGEST as u64) as usize;
    let less = length.saturating_sub(1);
    random.pick(&[
        0,
        less,
        less,
        length,
        length,
        length + 1,
        RECORD_TEXT_LONGEST,
        any,
    ])
}
