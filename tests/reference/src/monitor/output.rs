//! The output of a list of calls with its undos applied, and what went wrong on the way.

use crate::record::{decode, Record, RECORD_BYTES};

/// An output read record by record.
#[derive(Clone, Debug, Default)]
pub struct Output {
    records: Vec<Record>,
    results: Vec<[u8; RECORD_BYTES]>,
    mark_due: bool,
    struck_stable: bool,
}

impl Output {
    /// Reads the records of one call, in the bytes that it laid down.
    pub fn read(&mut self, bytes: &[u8]) -> Result<(), String> {
        for chunk in bytes.chunks(RECORD_BYTES) {
            let record = decode(chunk).map_err(|_| format!("no record: {chunk:?}"))?;
            self.records.push(record);
            match record.kind {
                b'S' | b'T' => self.results.push(encoded(chunk)),
                b'U' => self.strike(record.id),
                b'R' => self.mark_due = false,
                _ => {}
            }
        }
        Ok(())
    }

    /// All records as they came.
    pub fn records(&self) -> &[Record] {
        &self.records
    }

    /// The results that no undo has struck.
    pub fn results(&self) -> &[[u8; RECORD_BYTES]] {
        &self.results
    }

    /// Whether the latest undo still waits for its R, document 01's closing mark.
    pub fn mark_due(&self) -> bool {
        self.mark_due
    }

    /// Whether an undo has struck a stable result.
    pub fn struck_stable(&self) -> bool {
        self.struck_stable
    }

    /// The stable results, which must come before every tentative one.
    pub fn stable(&self) -> Result<&[[u8; RECORD_BYTES]], String> {
        let kinds = || self.results.iter().map(|result| result[0]);
        let count = kinds().take_while(|&kind| kind == b'S').count();
        if kinds().skip(count).any(|kind| kind != b'T') {
            return Err("a stable result behind a tentative one".into());
        }
        Ok(&self.results[..count])
    }

    fn strike(&mut self, id: u32) {
        self.mark_due = true;
        let above = |result: &[u8; RECORD_BYTES]| id_of(result) > id;
        let stable = |result: &[u8; RECORD_BYTES]| result[0] == b'S';
        self.struck_stable |= self
            .results
            .iter()
            .any(|result| above(result) && stable(result));
        self.results.retain(|result| !above(result));
    }
}

fn encoded(chunk: &[u8]) -> [u8; RECORD_BYTES] {
    chunk.try_into().expect("32 bytes, as decoded")
}

fn id_of(result: &[u8; RECORD_BYTES]) -> u32 {
    u32::from_le_bytes([result[4], result[5], result[6], result[7]])
}
