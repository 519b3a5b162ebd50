//! A display's call, and the lines that a console has for it.

use super::pen::Pen;
use super::reader::Reader;
use super::LINE_END;

/// What a display wants.
#[derive(Clone, Copy, Debug, PartialEq, Eq)]
pub enum Wish {
    /// To acknowledge all stable results up to an id.
    Acknowledge,
    /// To be sent the stable results from an id on.
    Fetch,
}

/// A display's call; displays are numbered from 1.
#[derive(Clone, Copy, Debug, PartialEq, Eq)]
pub struct DisplayCall {
    pub wish: Wish,
    pub display: u32,
    pub id: u64,
}

/// The display's call that a text spells, if the text has exactly the form.
pub fn read_display_call(text: &[u8]) -> Option<DisplayCall> {
    let mut reader = Reader::new(text);
    let wish = match reader.word(b"ack") {
        Some(()) => Wish::Acknowledge,
        None => {
            reader.word(b"fetch")?;
            Wish::Fetch
        }
    };
    reader.word(b" display=")?;
    let display = reader.unsigned(u32::MAX)?;
    reader.word(b" id=")?;
    let id = reader.wide()?;
    reader.end()?;
    Some(DisplayCall { wish, display, id })
}

/// The line of a display's call.
pub fn spell_display_call(call: &DisplayCall) -> Vec<u8> {
    let mut pen = Pen::new();
    pen.word(match call.wish {
        Wish::Acknowledge => b"ack",
        Wish::Fetch => b"fetch",
    });
    pen.word(b" display=");
    pen.unsigned(u64::from(call.display));
    pen.word(b" id=");
    pen.unsigned(call.id);
    pen.byte(LINE_END);
    pen.text().to_vec()
}
