//! The refusals and the answer numbers (document 01, section 'Refusal by whom'; document 02, W2).

/// The answer of an accepted call.
pub const ACCEPTED: u32 = 0;

/// Why a call or an opening changes nothing; the number is the answer given.
#[derive(Clone, Copy, Debug, PartialEq, Eq)]
pub enum Refusal {
    SettingsForm = 1,
    SettingsLimits = 2,
    StoreShort = 3,
    OutOfShape = 4,
    AreaShort = 5,
    JournalForm = 6,
    ClockBack = 7,
    WrongLine = 8,
    UnusedField = 9,
    MeterTooHigh = 10,
    WrongId = 11,
    BelowBoundary = 12,
    TentativeKept = 13,
    LineFull = 14,
    PlacesTaken = 15,
    WrongDisplay = 16,
    WrongResult = 17,
}

/// The answer number of an outcome: 0 if accepted, else the refusal's number.
pub fn answer<T>(outcome: &Result<T, Refusal>) -> u32 {
    match outcome {
        Ok(_) => ACCEPTED,
        Err(refusal) => *refusal as u32,
    }
}
