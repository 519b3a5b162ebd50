//! Inputs that are odd as bytes: no lines, cut lines, very long lines, bytes that are no text.

use crate::playback::Mode;
use crate::text::LINE_END;

const SETTINGS: &[u8] = b"lines=2 bucket=100 window=1 hold=50 low=-1000 high=1000 displays=1\n";
const READING: &[u8] = b"now=0 line=1 kind=S id=1 time=10 meter=3 value=7\n";
const SECOND: &[u8] = b"now=1 line=1 kind=S id=2 time=11 meter=3 value=8\n";
const STEP: &[u8] = b"now=60 line=0 kind=P id=0 time=0 meter=0 value=0\n";
const IDLE: &[u8] = b"now=0 line=0 kind=P id=0 time=0 meter=0 value=0\n";
const TOO_MANY_LINES: &[u8] =
    b"lines=9 bucket=100 window=1 hold=50 low=-1000 high=1000 displays=1\n";

/// Sizes of buffers that a program may have.
const BUFFERS: [usize; 5] = [89, 122, 4_096, 65_536, 131_072];
/// Bytes of input behind settings that are refused, more than any pipe takes.
const MUCH: usize = 1_000_000;

/// Every odd input for a program, with a name.
pub fn odd_inputs(mode: Mode) -> Vec<(String, Vec<u8>)> {
    let mut inputs = plain_inputs();
    if mode == Mode::Console {
        inputs.extend(display_inputs());
    }
    for buffer in BUFFERS {
        for length in [buffer - 1, buffer, buffer + 1, buffer + 2] {
            inputs.extend(long_lines(length));
        }
    }
    for before in 0..=READING.len() {
        inputs.push(across(65_536, before));
    }
    inputs
}

fn plain_inputs() -> Vec<(String, Vec<u8>)> {
    let much = STEP.repeat(MUCH / STEP.len());
    let inputs: [(&str, Vec<u8>); 19] = [
        ("empty", vec![]),
        ("only-0a", vec![LINE_END]),
        ("many-0a", vec![LINE_END; 100_000]),
        ("settings-only", SETTINGS.to_vec()),
        ("settings-without-0a", without_end(SETTINGS)),
        ("form-refused", [b"x\n", READING, STEP].concat()),
        ("form-refused-much-behind", [b"x\n", &much[..]].concat()),
        ("limit-refused", [TOO_MANY_LINES, READING, STEP].concat()),
        (
            "limit-refused-much-behind",
            [TOO_MANY_LINES, &much].concat(),
        ),
        ("0a-behind-settings", [SETTINGS, b"\n\n", STEP].concat()),
        (
            "last-line-without-0a",
            [SETTINGS, READING, &without_end(STEP)].concat(),
        ),
        ("one-byte-behind", [SETTINGS, READING, b"n"].concat()),
        ("nul-settings", [b"\0", SETTINGS, STEP].concat()),
        ("nul-line", [SETTINGS, b"\0\n", READING, STEP].concat()),
        (
            "nul-before-0a",
            [SETTINGS, &without_end(READING), b"\0\n", STEP].concat(),
        ),
        ("nul-only", vec![0; 100_000]),
        (
            "cr-lf",
            [&without_end(SETTINGS), &b"\r\n"[..], READING].concat(),
        ),
        (
            "cr-lf-line",
            [SETTINGS, &without_end(READING), b"\r\n", READING, STEP].concat(),
        ),
        ("two-settings", [SETTINGS, SETTINGS, READING, STEP].concat()),
    ];
    inputs
        .into_iter()
        .map(|(name, bytes)| (name.to_string(), bytes))
        .collect()
}

/// A result that is out, and lines that are a display's or nearly so.
fn display_inputs() -> Vec<(String, Vec<u8>)> {
    let bound = b"now=0 line=1 kind=B id=0 time=100 meter=0 value=0\n\
        now=0 line=2 kind=B id=0 time=100 meter=0 value=0\n";
    let begun = [SETTINGS, READING, bound, STEP].concat();
    let lines: [&[u8]; 30] = [
        b"ack display=1 id=0\n",
        b"fetch display=1 id=1\n",
        b"fetch display=1 id=2\n",
        b"fetch display=1 id=3\n",
        b"fetch display=1 id=0\n",
        b"fetch display=2 id=1\n",
        b"fetch display=0 id=1\n",
        b"fetch display=4294967295 id=18446744073709551615\n",
        b"fetch display=4294967296 id=1\n",
        b"fetch display=1 id=18446744073709551616\n",
        b"fetch display=01 id=1\n",
        b"fetch display=1 id=01\n",
        b"fetch display=+1 id=1\n",
        b"fetch display=1 id=-1\n",
        b"fetch  display=1 id=1\n",
        b"fetch display=1  id=1\n",
        b"fetch display=1 id=1 \n",
        b"fetch display=1 id=1\r\n",
        b"fetch display=1 id=1\0\n",
        b"fetch id=1 display=1\n",
        b"fetch display=1\n",
        b"fetch\n",
        b"Fetch display=1 id=1\n",
        b"fetched display=1 id=1\n",
        b" fetch display=1 id=1\n",
        b"ackdisplay=1 id=1\n",
        b"acknowledge display=1 id=1\n",
        b"ack display=1 id=2\n",
        b"ack display=1 id=1\n",
        b"fetch display=1 id=1\n",
    ];
    let mut inputs = vec![
        (
            "displays".to_string(),
            [&begun, &lines.concat()[..]].concat(),
        ),
        (
            "display-settings".to_string(),
            [lines[0], SETTINGS, STEP].concat(),
        ),
    ];
    for line in &lines[..2] {
        let name = format!("display-line-without-0a-{}", inputs.len());
        inputs.push((name, [&begun[..], &without_end(line)].concat()));
    }
    inputs
}

/// Lines of so many bytes with their 0A: as settings, as a journal line, cut off at the end of
/// the input, and such that the end of each looks like a sound line.
fn long_lines(length: usize) -> [(String, Vec<u8>); 5] {
    let mut line = vec![b'x'; length - 1];
    line.push(LINE_END);
    let padded = |sound: &[u8]| [&line[..length.saturating_sub(sound.len())], sound].concat();
    let inputs = [
        ("settings", [&line, READING].concat()),
        ("settings-ending-sound", [&padded(SETTINGS), STEP].concat()),
        ("line", [SETTINGS, READING, &line, STEP].concat()),
        (
            "line-ending-sound",
            [SETTINGS, READING, &padded(SECOND), STEP].concat(),
        ),
        (
            "line-cut",
            [SETTINGS, READING, &without_end(&line)].concat(),
        ),
    ];
    inputs.map(|(name, bytes)| (format!("{length}-bytes-{name}"), bytes))
}

/// A sound line of which so many bytes stand before a place in the input, the others behind it.
fn across(place: usize, before: usize) -> (String, Vec<u8>) {
    let mut input = [SETTINGS, READING].concat();
    let idle = (place - before - input.len()) / IDLE.len() - 1;
    input.extend_from_slice(&IDLE.repeat(idle));
    input.resize(place - before - 1, b'x');
    input.push(LINE_END);
    input.extend_from_slice(SECOND);
    input.extend_from_slice(STEP);
    (format!("line-across-{place}-by-{before}"), input)
}

fn without_end(line: &[u8]) -> Vec<u8> {
    line[..line.len() - 1].to_vec()
}
