//! The node: its state, the lent stores, the opening, the call and the two calls of a display.

mod accept;
mod displays;
mod operator;
mod refuse;
mod sent;
mod shape;
mod state;
mod step;
mod store;

pub use displays::{acknowledge, fetch, FETCH_LIMIT};
pub use operator::{is_half, mean, Meter, Operator, METERS};
pub use refuse::refusal_of_sender;
pub use sent::{free_places, held, place_of, HELD, SENT_BYTES};
pub use shape::{in_shape, GREATEST_BUCKET};
pub use state::{Head, State, Word, DISPLAYS, LINES};
pub use step::{bucket_of, is_stable, results_ahead, rule, Rule};
pub use store::{is_short, store_length, Reading, Store, SHARE};

use crate::record::AREA_BYTES;
use crate::refusal::{answer, Refusal};
use crate::text::{read_call, read_display_call, read_settings, DisplayCall, Wish};

/// What a host lends from call to call: the store of readings and the send-back store, each of any
/// length.
#[derive(Clone, Debug, PartialEq, Eq)]
pub struct Lent {
    pub store: Vec<Reading>,
    pub sent: Vec<u8>,
}

impl Lent {
    /// Zeroed stores of exactly the places of eight lines and of the results that are held.
    pub fn zeroed() -> Self {
        Lent {
            store: vec![Reading::ZERO; LINES * SHARE],
            sent: vec![0; SENT_BYTES],
        }
    }

    /// Whether one of the stores is too short for so many lines, whatever their number.
    fn is_short(&self, lines: u32) -> bool {
        is_short(lines, self.store.len()) || self.sent.len() < SENT_BYTES
    }
}

/// One call after an opening: a journal line's text, or what a display wants.
#[derive(Clone, Copy, Debug, PartialEq, Eq)]
pub enum Input<'a> {
    Journal(&'a [u8]),
    Display(DisplayCall),
}

impl<'a> Input<'a> {
    /// What a line is to a console; any text without a form is taken for a journal line.
    pub fn of_line(text: &'a [u8]) -> Self {
        read_display_call(text).map_or(Input::Journal(text), Input::Display)
    }
}

/// Opens a node: refusals 1 to 3, else a fresh state, the shares and the send-back store's places
/// zeroed.
pub fn open(text: &[u8], lent: &mut Lent) -> Result<State, Refusal> {
    let settings = read_settings(text)?;
    if lent.is_short(settings.lines) {
        return Err(Refusal::StoreShort);
    }
    lent.store[..settings.lines as usize * SHARE].fill(Reading::ZERO);
    lent.sent[..SENT_BYTES].fill(0);
    Ok(State::fresh(settings))
}

/// One call of any kind: the answer and the number of records laid down in the area.
pub fn make(state: &mut State, lent: &mut Lent, input: Input, area: &mut [u8]) -> (u32, usize) {
    match input {
        Input::Journal(text) => call(state, lent, text, area),
        Input::Display(DisplayCall { wish, display, id }) => match wish {
            Wish::Acknowledge => acknowledge(state, lent, display, id, area),
            Wish::Fetch => fetch(state, lent, display, id, area),
        },
    }
}

/// One journal call on any state: the answer and the number of records laid down in the area.
pub fn call(state: &mut State, lent: &mut Lent, text: &[u8], area: &mut [u8]) -> (u32, usize) {
    let outcome = match host_refusal(state, lent) {
        Some(refusal) => Err(refusal),
        None => attempt(state, lent, text, area),
    };
    (answer(&outcome), outcome.unwrap_or(0))
}

/// Refusals 3 and 4.
fn host_refusal(state: &State, lent: &Lent) -> Option<Refusal> {
    if lent.is_short(state.settings.lines) {
        return Some(Refusal::StoreShort);
    }
    (!in_shape(state, lent)).then_some(Refusal::OutOfShape)
}

/// One journal call where refusals 3 and 4 cannot fit, as after any list of calls from an opening.
pub fn call_in_shape(
    state: &mut State,
    lent: &mut Lent,
    text: &[u8],
    area: &mut [u8],
) -> (u32, usize) {
    debug_assert!(in_shape(state, lent));
    let outcome = attempt(state, lent, text, area);
    (answer(&outcome), outcome.unwrap_or(0))
}

/// Refusals 5 to 15, else what the call does.
fn attempt(
    state: &mut State,
    lent: &mut Lent,
    text: &[u8],
    area: &mut [u8],
) -> Result<usize, Refusal> {
    if area.len() < AREA_BYTES {
        return Err(Refusal::AreaShort);
    }
    let call = read_call(text).ok_or(Refusal::JournalForm)?;
    match refusal_of_sender(state, &lent.store, &call) {
        Some(refusal) => Err(refusal),
        None => Ok(accept::accept(state, lent, &call, area)),
    }
}
