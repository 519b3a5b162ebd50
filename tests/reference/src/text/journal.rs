//! The journal line: strict reading, the form test, and the writer.

use super::pen::Pen;
use super::reader::Reader;
use super::LINE_END;
use crate::refusal::Refusal;

/// The most bytes of a journal line, and the least area that the writer takes.
pub const JOURNAL_LONGEST: usize = 89;

/// The letter of a stable reading, and of a stable result.
pub const STABLE: u8 = b'S';
/// The letter of a tentative reading, and of a tentative result.
pub const TENTATIVE: u8 = b'T';
/// The letter of a boundary.
pub const BOUNDARY: u8 = b'B';
/// The letter of an undo.
pub const UNDO: u8 = b'U';
/// The letter of corrections done, the closing mark.
pub const DONE: u8 = b'R';
/// The letter of a step.
pub const STEP: u8 = b'P';

/// The fields of one journal line; the kind is the letter's byte.
#[derive(Clone, Copy, Debug, PartialEq, Eq)]
pub struct Call {
    pub now: u32,
    pub line: u8,
    pub kind: u8,
    pub id: u32,
    pub time: u32,
    pub meter: u8,
    pub value: i32,
}

impl Call {
    /// A step at some arrival tick.
    pub fn step(now: u32) -> Self {
        Call {
            now,
            line: 0,
            kind: STEP,
            id: 0,
            time: 0,
            meter: 0,
            value: 0,
        }
    }

    /// Whether the call hands over a reading.
    pub fn is_reading(&self) -> bool {
        self.kind == STABLE || self.kind == TENTATIVE
    }
}

/// Whether a byte is the letter of one of the six kinds.
fn is_letter(kind: u8) -> bool {
    matches!(kind, STABLE | TENTATIVE | BOUNDARY | UNDO | DONE | STEP)
}

/// The call that a text spells, if the text has exactly the form.
pub fn read_call(text: &[u8]) -> Option<Call> {
    let mut reader = Reader::new(text);
    reader.word(b"now=")?;
    let now = reader.unsigned(u32::MAX)?;
    reader.word(b" line=")?;
    let line = reader.unsigned(255)? as u8;
    reader.word(b" kind=")?;
    let kind = reader.byte().filter(|&byte| is_letter(byte))?;
    reader.word(b" id=")?;
    let id = reader.unsigned(u32::MAX)?;
    reader.word(b" time=")?;
    let time = reader.unsigned(u32::MAX)?;
    reader.word(b" meter=")?;
    let meter = reader.unsigned(255)? as u8;
    reader.word(b" value=")?;
    let value = reader.signed()?;
    reader.end()?;
    Some(Call {
        now,
        line,
        kind,
        id,
        time,
        meter,
        value,
    })
}

/// Whether a text has the form of a journal line.
pub fn has_form(text: &[u8]) -> bool {
    read_call(text).is_some()
}

/// Writes a call's text to the front of the area and gives its length; the rest stays.
pub fn write_call(call: &Call, area: &mut [u8]) -> Result<usize, Refusal> {
    if !is_letter(call.kind) {
        return Err(Refusal::JournalForm);
    }
    if area.len() < JOURNAL_LONGEST {
        return Err(Refusal::AreaShort);
    }
    let pen = spell(call);
    area[..pen.text().len()].copy_from_slice(pen.text());
    Ok(pen.text().len())
}

/// The line of a call whose kind has a letter.
pub fn spell_call(call: &Call) -> Vec<u8> {
    assert!(is_letter(call.kind), "a kind with a letter");
    spell(call).text().to_vec()
}

fn spell(call: &Call) -> Pen {
    let mut pen = Pen::new();
    pen.word(b"now=");
    pen.unsigned(u64::from(call.now));
    pen.word(b" line=");
    pen.unsigned(u64::from(call.line));
    pen.word(b" kind=");
    pen.byte(call.kind);
    pen.word(b" id=");
    pen.unsigned(u64::from(call.id));
    pen.word(b" time=");
    pen.unsigned(u64::from(call.time));
    pen.word(b" meter=");
    pen.unsigned(u64::from(call.meter));
    pen.word(b" value=");
    pen.signed(i64::from(call.value));
    pen.byte(LINE_END);
    pen
}
