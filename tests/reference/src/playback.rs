//! The programs `merge`, `replay` and `console` over any input and output (document 01, 'On the last
//! tick and past it').

use std::io::{self, BufRead, BufReader, BufWriter, ErrorKind, Read, Write};
use std::process::ExitCode;

use crate::node::{acknowledge, call_in_shape, make, open, Input, Lent, State};
use crate::record::{decode, spell, AREA_BYTES, RECORD_BYTES};
use crate::refusal::{answer, ACCEPTED};
use crate::text::{Pen, LINE_END};

/// The bytes read and written at a time.
const BUFFER: usize = 1 << 16;
/// The bytes kept of a line; each form is shorter, so a cut line still lacks it.
const LINE_ROOM: usize = 128;

/// Which program it is.
#[derive(Clone, Copy, Debug, PartialEq, Eq)]
pub enum Mode {
    /// Journal calls only, as document 01 has it: nobody acknowledges a result.
    Merge,
    /// The same, but every display acknowledges all stable results of a line before the next is read.
    Replay,
    /// Journal lines, and lines for the calls of displays.
    Console,
}

/// The programs with their names.
pub const MODES: [(&str, Mode); 3] = [
    ("merge", Mode::Merge),
    ("replay", Mode::Replay),
    ("console", Mode::Console),
];

/// Reads the settings line and the lines behind it, and prints what each of them gives.
pub fn play<I: Read, O: Write>(mode: Mode, input: I, output: O) -> io::Result<()> {
    play_by(make, mode, input, output)
}

/// The same without refusals 3 and 4 of journal calls, which no input can get.
pub fn play_unchecked<I: Read, O: Write>(mode: Mode, input: I, output: O) -> io::Result<()> {
    let unchecked: MakeCall = |state, lent, input, area| match input {
        Input::Journal(text) => call_in_shape(state, lent, text, area),
        Input::Display(_) => make(state, lent, input, area),
    };
    play_by(unchecked, mode, input, output)
}

/// A program of this name as it is run from a shell, from standard input to standard output.
pub fn run_program(name: &str, mode: Mode) -> ExitCode {
    let arguments: Vec<String> = std::env::args().skip(1).collect();
    let (input, output) = (io::stdin().lock(), io::stdout().lock());
    let played = match &arguments[..] {
        [] => play(mode, input, output),
        [option] if option == "--unchecked" => play_unchecked(mode, input, output),
        _ => {
            eprintln!("usage: {name} [--unchecked]");
            return ExitCode::from(2);
        }
    };
    match played {
        Ok(()) => ExitCode::SUCCESS,
        Err(error) => {
            eprintln!("{name}: {error}");
            ExitCode::FAILURE
        }
    }
}

/// What makes a call: state, stores, input and area in; the answer and the number of records out.
type MakeCall = fn(&mut State, &mut Lent, Input, &mut [u8]) -> (u32, usize);

fn play_by<I: Read, O: Write>(call: MakeCall, mode: Mode, input: I, output: O) -> io::Result<()> {
    let mut lines = Lines::new(input);
    let mut output = BufWriter::with_capacity(BUFFER, output);
    lines.next()?;
    let mut lent = Lent::zeroed();
    let opened = open(lines.line(), &mut lent);
    let word = opened.as_ref().map_or("none", |state| state.word.name());
    print_answer(&mut output, answer(&opened), 0, word)?;
    if let Ok(mut state) = opened {
        let mut area = [0; AREA_BYTES];
        loop {
            if lines.is_empty() {
                output.flush()?;
            }
            if !lines.next()? {
                break;
            }
            let input = match mode {
                Mode::Merge | Mode::Replay => Input::Journal(lines.line()),
                Mode::Console => Input::of_line(lines.line()),
            };
            let (answer, records) = call(&mut state, &mut lent, input, &mut area);
            print_answer(&mut output, answer, records, state.word.name())?;
            print_records(&mut output, &area[..records * RECORD_BYTES])?;
            if mode == Mode::Replay {
                acknowledge_all(&mut state, &mut lent);
            }
        }
    }
    output.flush()
}

/// Every display acknowledges all stable results so far; one that has done so says nothing.
pub fn acknowledge_all(state: &mut State, lent: &mut Lent) {
    let newest = state.newest_stable();
    for display in 1..=state.settings.displays {
        if state.displays()[display as usize - 1] < newest {
            let (answer, _) = acknowledge(state, lent, display, newest, &[0; AREA_BYTES]);
            assert_eq!(answer, ACCEPTED, "the newest stable id");
        }
    }
}

fn print_records<O: Write>(output: &mut O, bytes: &[u8]) -> io::Result<()> {
    for bytes in bytes.chunks_exact(RECORD_BYTES) {
        let record = decode(bytes).expect("a record just laid down");
        output.write_all(spell(&record).text())?;
    }
    Ok(())
}

fn print_answer<O: Write>(
    output: &mut O,
    answer: u32,
    records: usize,
    word: &str,
) -> io::Result<()> {
    let mut pen = Pen::new();
    pen.word(b"answer=");
    pen.unsigned(u64::from(answer));
    pen.word(b" records=");
    pen.unsigned(records as u64);
    pen.word(b" state=");
    pen.word(word.as_bytes());
    pen.byte(LINE_END);
    output.write_all(pen.text())
}

/// The lines of an input, one at a time, of any length and from pieces of any size.
struct Lines<I> {
    input: BufReader<I>,
    room: [u8; LINE_ROOM],
    length: usize,
    ended: bool,
}

impl<I: Read> Lines<I> {
    fn new(input: I) -> Self {
        Lines {
            input: BufReader::with_capacity(BUFFER, input),
            room: [0; LINE_ROOM],
            length: 0,
            ended: false,
        }
    }

    /// Whether no byte is left of what was read: a program that waits must have its answers by then.
    fn is_empty(&self) -> bool {
        self.input.buffer().is_empty()
    }

    /// The line read last, cut to the room if it is longer; empty before the first.
    fn line(&self) -> &[u8] {
        &self.room[..self.length]
    }

    /// Goes on to the next line; false where the input has no byte left.
    fn next(&mut self) -> io::Result<bool> {
        self.length = 0;
        let mut any = false;
        while !self.ended {
            let piece = match self.input.fill_buf() {
                Err(error) if error.kind() == ErrorKind::Interrupted => continue,
                piece => piece?,
            };
            self.ended = piece.is_empty();
            any |= !self.ended;
            let end = piece.iter().position(|&byte| byte == LINE_END);
            let taken = end.map_or(piece.len(), |place| place + 1);
            let copied = taken.min(LINE_ROOM - self.length);
            self.room[self.length..self.length + copied].copy_from_slice(&piece[..copied]);
            self.length += copied;
            self.input.consume(taken);
            if end.is_some() {
                break;
            }
        }
        Ok(any)
    }
}
