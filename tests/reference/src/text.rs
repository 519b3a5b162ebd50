//! Texts: the settings line, the journal line, the console's lines for displays, and the cutting of a
//! text into lines.

mod display;
mod journal;
mod pen;
mod reader;
mod settings;

pub use display::{read_display_call, spell_display_call, DisplayCall, Wish};
pub use journal::{
    has_form, read_call, spell_call, write_call, Call, BOUNDARY, DONE, JOURNAL_LONGEST, STABLE,
    STEP, TENTATIVE, UNDO,
};
pub(crate) use pen::Pen;
pub use settings::{read_settings, write_settings, Settings, SETTINGS_LONGEST};

/// The byte that ends a line.
pub const LINE_END: u8 = 0x0A;

/// The first line of a text with its line end; the whole text where no line ends.
pub fn next_line(text: &[u8]) -> &[u8] {
    match text.iter().position(|&byte| byte == LINE_END) {
        Some(place) => &text[..=place],
        None => text,
    }
}
