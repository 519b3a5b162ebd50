//! The record of 32 bytes and its text (document 01, section 'Store and output area').

use crate::refusal::Refusal;
use crate::text::{Pen, BOUNDARY, DONE, LINE_END, STABLE, TENTATIVE, UNDO};

/// The bytes of one record.
pub const RECORD_BYTES: usize = 32;
/// The records that an output area must have room for.
pub const AREA_RECORDS: usize = 65;
/// The least bytes of an output area.
pub const AREA_BYTES: usize = AREA_RECORDS * RECORD_BYTES;
/// The most bytes that the text of one record can have.
pub const RECORD_TEXT_LONGEST: usize = 123;

/// One record put out by a step; the kind is the letter's byte.
#[derive(Clone, Copy, Debug, Default, PartialEq, Eq)]
pub struct Record {
    pub kind: u8,
    pub meter: u8,
    pub id: u32,
    pub time: u32,
    pub count: u32,
    pub sum: i64,
    pub mean: i32,
    pub last: i32,
}

impl Record {
    /// An undo, which has only the id.
    pub fn undo(id: u32) -> Self {
        Record {
            kind: UNDO,
            id,
            ..Record::default()
        }
    }

    /// A boundary, which has only the time.
    pub fn boundary(time: u32) -> Self {
        Record {
            kind: BOUNDARY,
            time,
            ..Record::default()
        }
    }

    /// An R, document 01's closing mark, which has neither.
    pub fn done() -> Self {
        Record {
            kind: DONE,
            ..Record::default()
        }
    }
}

/// The bytes of a record, numbers with the low byte first.
pub fn encode(record: &Record) -> [u8; RECORD_BYTES] {
    let mut bytes = [0; RECORD_BYTES];
    bytes[0] = record.kind;
    bytes[1] = record.meter;
    bytes[4..8].copy_from_slice(&record.id.to_le_bytes());
    bytes[8..12].copy_from_slice(&record.time.to_le_bytes());
    bytes[12..16].copy_from_slice(&record.count.to_le_bytes());
    bytes[16..24].copy_from_slice(&record.sum.to_le_bytes());
    bytes[24..28].copy_from_slice(&record.mean.to_le_bytes());
    bytes[28..32].copy_from_slice(&record.last.to_le_bytes());
    bytes
}

/// The record that some bytes hold; refusal 6 for every other stretch of bytes.
pub fn decode(bytes: &[u8]) -> Result<Record, Refusal> {
    let bytes: &[u8; RECORD_BYTES] = bytes.try_into().map_err(|_| Refusal::JournalForm)?;
    let known = matches!(bytes[0], STABLE | TENTATIVE | UNDO | BOUNDARY | DONE);
    if !known || bytes[2] != 0 || bytes[3] != 0 {
        return Err(Refusal::JournalForm);
    }
    let four = |place: usize| [0, 1, 2, 3].map(|step| bytes[place + step]);
    Ok(Record {
        kind: bytes[0],
        meter: bytes[1],
        id: u32::from_le_bytes(four(4)),
        time: u32::from_le_bytes(four(8)),
        count: u32::from_le_bytes(four(12)),
        sum: i64::from_le_bytes([0, 1, 2, 3, 4, 5, 6, 7].map(|step| bytes[16 + step])),
        mean: i32::from_le_bytes(four(24)),
        last: i32::from_le_bytes(four(28)),
    })
}

/// Writes the text of one record to the front of the area: refusal 6 first, then 5.
pub fn record_text(bytes: &[u8], area: &mut [u8]) -> Result<usize, Refusal> {
    let pen = spell(&decode(bytes)?);
    let length = pen.text().len();
    if area.len() < length {
        return Err(Refusal::AreaShort);
    }
    area[..length].copy_from_slice(pen.text());
    Ok(length)
}

pub(crate) fn spell(record: &Record) -> Pen {
    let mut pen = Pen::new();
    pen.word(b"kind=");
    pen.byte(record.kind);
    pen.word(b" id=");
    pen.unsigned(u64::from(record.id));
    pen.word(b" time=");
    pen.unsigned(u64::from(record.time));
    pen.word(b" meter=");
    pen.unsigned(u64::from(record.meter));
    pen.word(b" count=");
    pen.unsigned(u64::from(record.count));
    pen.word(b" sum=");
    pen.signed(record.sum);
    pen.word(b" mean=");
    pen.signed(i64::from(record.mean));
    pen.word(b" last=");
    pen.signed(i64::from(record.last));
    pen.byte(LINE_END);
    pen
}
