//! Decisions on the writing of records and journal lines, a small test for each.

mod common;

use common::{plain, spell, UNTOUCHED};
use reference::generate::{any_call, Random};
use reference::record::{decode, encode, record_text, Record, RECORD_TEXT_LONGEST};
use reference::refusal::answer;
use reference::text::{read_call, write_call, Call, JOURNAL_LONGEST};

fn text_of(record: &Record) -> String {
    let mut area = [UNTOUCHED; 200];
    let length = record_text(&encode(record), &mut area).unwrap();
    assert!(area[length..].iter().all(|&byte| byte == UNTOUCHED));
    String::from_utf8(area[..length].to_vec()).unwrap()
}

// Only the two zero bytes must be zero; whatever the other fields hold is spelled.
#[test]
fn record_texts() {
    let mut record = Record::undo(7);
    record.count = 5;
    record.meter = 255;
    let due = "kind=U id=7 time=0 meter=255 count=5 sum=0 mean=0 last=0\n";
    assert_eq!(text_of(&record), due);
    let longest = Record {
        kind: b'S',
        meter: 255,
        id: u32::MAX,
        time: u32::MAX,
        count: u32::MAX,
        sum: i64::MIN,
        mean: i32::MIN,
        last: i32::MIN,
    };
    assert_eq!(text_of(&longest).len(), RECORD_TEXT_LONGEST);
    assert!(text_of(&longest).contains("sum=-9223372036854775808 "));
    let bytes = encode(&longest);
    assert_eq!(decode(&bytes), Ok(longest));
    for place in [2, 3] {
        let mut wrong = bytes;
        wrong[place] = 1;
        assert_eq!(answer(&record_text(&wrong, &mut [0; 200])), 6);
    }
    for kind in 0..=255 {
        let mut other = bytes;
        other[0] = kind;
        let known = b"STUBR".contains(&kind);
        assert_eq!(record_text(&other, &mut [0; 200]).is_ok(), known);
    }
    assert_eq!(answer(&record_text(&bytes[..31], &mut [0; 200])), 6);
    assert_eq!(
        answer(&record_text(&[&bytes[..], &[0]].concat(), &mut [0; 200])),
        6
    );
}

// The layout, low byte first.
#[test]
fn record_bytes() {
    let record = Record {
        kind: b'T',
        meter: 3,
        id: 0x0403_0201,
        time: 0x0807_0605,
        count: 0x0C0B_0A09,
        sum: -2,
        mean: -3,
        last: 0x100F_0E0D,
    };
    let mut due = vec![b'T', 3, 0, 0, 1, 2, 3, 4, 5, 6, 7, 8, 9, 10, 11, 12];
    due.extend_from_slice(&[0xFE, 255, 255, 255, 255, 255, 255, 255]);
    due.extend_from_slice(&[0xFD, 255, 255, 255, 13, 14, 15, 16]);
    assert_eq!(encode(&record).to_vec(), due);
}

// A record's text needs its own length, the journal writer always 89; 6 before 5.
#[test]
fn areas_of_texts() {
    let bytes = encode(&Record::done());
    let length = text_of(&Record::done()).len();
    assert_eq!(record_text(&bytes, &mut vec![0; length]), Ok(length));
    assert_eq!(answer(&record_text(&bytes, &mut vec![0; length - 1])), 5);
    assert_eq!(answer(&record_text(&[0; 32], &mut [])), 6);
    let call = plain(0, 0, 'P');
    let mut area = [UNTOUCHED; JOURNAL_LONGEST];
    assert_eq!(answer(&write_call(&call, &mut area[..88])), 5);
    assert_eq!(area, [UNTOUCHED; JOURNAL_LONGEST]);
    let length = write_call(&call, &mut area).unwrap();
    assert_eq!(
        area[..length],
        b"now=0 line=0 kind=P id=0 time=0 meter=0 value=0\n"[..]
    );
    assert!(area[length..].iter().all(|&byte| byte == UNTOUCHED));
}

// To the writer a kind is any byte, and all but the six letters are refused.
#[test]
fn kinds_without_a_letter() {
    for kind in 0..=255 {
        let call = Call {
            kind,
            ..plain(0, 0, 'P')
        };
        let known = b"STBURP".contains(&kind);
        assert_eq!(
            answer(&write_call(&call, &mut [0; 89])),
            if known { 0 } else { 6 }
        );
        assert_eq!(
            answer(&write_call(&call, &mut [0; 88])),
            if known { 5 } else { 6 }
        );
    }
}

// Reading gives back the call that was written, up to the longest line.
#[test]
fn written_lines_read_back() {
    let mut random = Random::new(22);
    for _ in 0..20_000 {
        let call = any_call(&mut random);
        assert_eq!(read_call(&spell(&call)), Some(call));
    }
    let longest = Call {
        now: u32::MAX,
        line: 255,
        kind: b'S',
        id: u32::MAX,
        time: u32::MAX,
        meter: 255,
        value: i32::MIN,
    };
    assert_eq!(spell(&longest).len(), JOURNAL_LONGEST);
    assert_eq!(read_call(&spell(&longest)), Some(longest));
}
