//! The settings line (document 01, section 'Clocks, lines and readings'; document 02, W2).

use super::pen::Pen;
use super::reader::Reader;
use super::LINE_END;
use crate::refusal::Refusal;

/// The length of the longest settings line.
pub const SETTINGS_LONGEST: usize = 122;

/// What an installer sets, whether within the limits or not.
#[derive(Clone, Copy, Debug, PartialEq, Eq)]
pub struct Settings {
    pub lines: u32,
    pub bucket: u32,
    pub window: u32,
    pub hold: u32,
    pub low: i32,
    pub high: i32,
    pub displays: u32,
}

impl Settings {
    /// Whether every setting is inside its limits.
    pub fn within_limits(&self) -> bool {
        (1..=8).contains(&self.lines)
            && (100..=36_000).contains(&self.bucket)
            && (1..=16).contains(&self.window)
            && self.hold <= 864_000
            && self.low <= self.high
            && (1..=4).contains(&self.displays)
    }
}

/// The settings of a text: refusal 1 for the form of all of it, only then 2 for the limits.
pub fn read_settings(text: &[u8]) -> Result<Settings, Refusal> {
    let settings = read_form(text).ok_or(Refusal::SettingsForm)?;
    if settings.within_limits() {
        Ok(settings)
    } else {
        Err(Refusal::SettingsLimits)
    }
}

/// The text of any settings, with its line end.
pub fn write_settings(settings: &Settings) -> Vec<u8> {
    let mut pen = Pen::new();
    for (word, number) in [
        (&b"lines="[..], i64::from(settings.lines)),
        (b" bucket=", i64::from(settings.bucket)),
        (b" window=", i64::from(settings.window)),
        (b" hold=", i64::from(settings.hold)),
        (b" low=", i64::from(settings.low)),
        (b" high=", i64::from(settings.high)),
        (b" displays=", i64::from(settings.displays)),
    ] {
        pen.word(word);
        pen.signed(number);
    }
    pen.byte(LINE_END);
    pen.text().to_vec()
}

fn read_form(text: &[u8]) -> Option<Settings> {
    let mut reader = Reader::new(text);
    reader.word(b"lines=")?;
    let lines = reader.unsigned(u32::MAX)?;
    reader.word(b" bucket=")?;
    let bucket = reader.unsigned(u32::MAX)?;
    reader.word(b" window=")?;
    let window = reader.unsigned(u32::MAX)?;
    reader.word(b" hold=")?;
    let hold = reader.unsigned(u32::MAX)?;
    reader.word(b" low=")?;
    let low = reader.signed()?;
    reader.word(b" high=")?;
    let high = reader.signed()?;
    reader.word(b" displays=")?;
    let displays = reader.unsigned(u32::MAX)?;
    reader.end()?;
    Some(Settings {
        lines,
        bucket,
        window,
        hold,
        low,
        high,
        displays,
    })
}
