//! Handing an input to a program in several ways, and taking its output.

use std::io::{self, ErrorKind, PipeWriter, Read, Write};
use std::os::fd::OwnedFd;
use std::os::unix::net::{UnixDatagram, UnixStream};
use std::path::Path;
use std::process::{Child, Command, Stdio};
use std::thread;
use std::time::Duration;

use super::{lines_of, starts_reply};
use crate::generate::Random;
use crate::text::LINE_END;

/// How long a program may stay silent before it is taken to hang.
const PATIENCE: Duration = Duration::from_secs(20);
/// The most bytes of a piece.
const PIECE: u64 = 64;
/// From this length on a line may leave a program less room than a packet has bytes.
const LONG_LINE: usize = 32_768;

/// How an input is handed over.
#[derive(Clone, Copy, Debug, PartialEq, Eq)]
pub enum Feed {
    /// All of it at once.
    Whole,
    /// In pieces of sizes that this seed gives; each read gets one, unless a line is very long.
    Pieces(u64),
    /// A line at a time, the next one only when the reply to it is there.
    Lines,
}

impl Feed {
    pub fn name(self) -> &'static str {
        match self {
            Feed::Whole => "whole",
            Feed::Pieces(_) => "in pieces",
            Feed::Lines => "line by line",
        }
    }
}

/// What a program did with an input.
pub struct Run {
    pub output: Vec<u8>,
    /// What went wrong beside the output.
    pub fault: Option<String>,
}

/// Runs a program on an input; the output due says how long each reply to a line is.
pub fn run(program: &Path, input: &[u8], due: &[u8], feed: Feed) -> io::Result<Run> {
    let (output, other) = UnixStream::pair()?;
    output.set_read_timeout(Some(PATIENCE))?;
    let in_packets =
        matches!(feed, Feed::Pieces(_)) && lines_of(input).all(|line| line.len() < LONG_LINE);
    let (stdin, host) = if in_packets { packets()? } else { pipe()? };
    let mut child = Command::new(program)
        .stdin(stdin)
        .stdout(OwnedFd::from(other))
        .spawn()?;
    let mut taken = Taken {
        socket: output,
        bytes: Vec::new(),
    };
    let taking = match feed {
        Feed::Whole => beside(&mut child, &mut taken, || send(host, input, None)),
        Feed::Pieces(seed) => beside(&mut child, &mut taken, || send(host, input, Some(seed))),
        Feed::Lines => line_by_line(host, input, due, &mut taken),
    };
    let fault = end(&mut child, taking)?;
    Ok(Run {
        output: taken.bytes,
        fault,
    })
}

/// The writing end of a program's standard input.
enum Host {
    Pipe(PipeWriter),
    Packets(UnixDatagram),
}

/// A pipe, in which pieces may run together.
fn pipe() -> io::Result<(Stdio, Host)> {
    let (reader, writer) = io::pipe()?;
    Ok((reader.into(), Host::Pipe(writer)))
}

/// A socket of packets, of which a read gets exactly one.
fn packets() -> io::Result<(Stdio, Host)> {
    let (reader, writer) = UnixDatagram::pair()?;
    Ok((OwnedFd::from(reader).into(), Host::Packets(writer)))
}

impl Host {
    fn put(&mut self, bytes: &[u8]) -> io::Result<()> {
        match self {
            Host::Pipe(pipe) => pipe.write_all(bytes),
            Host::Packets(socket) => socket.send(bytes).map(|_| ()),
        }
    }
}

impl Drop for Host {
    /// Ends the input: to a reader an empty packet is the end.
    fn drop(&mut self) {
        if let Host::Packets(socket) = self {
            let _ = socket.send(&[]);
        }
    }
}

/// Sends all of the input, in pieces if there is a seed; a program that has ended gets no more.
fn send(mut host: Host, input: &[u8], seed: Option<u64>) {
    let mut random = seed.map(Random::new);
    let mut rest = input;
    while !rest.is_empty() {
        let size = random
            .as_mut()
            .map_or(rest.len(), |random| piece_size(random).min(rest.len()));
        if host.put(&rest[..size]).is_err() {
            return;
        }
        rest = &rest[size..];
    }
}

/// Often very few bytes.
fn piece_size(random: &mut Random) -> usize {
    let most = random.pick(&[1, 4, PIECE, PIECE]);
    1 + random.below(most) as usize
}

/// The output taken so far.
struct Taken {
    socket: UnixStream,
    bytes: Vec<u8>,
}

impl Taken {
    /// Takes what comes until so many bytes are there or the output ends.
    fn take_until(&mut self, length: usize) -> io::Result<()> {
        let mut room = [0; 1 << 16];
        while self.bytes.len() < length {
            match self.socket.read(&mut room) {
                Ok(0) => break,
                Ok(count) => self.bytes.extend_from_slice(&room[..count]),
                Err(error) if error.kind() == ErrorKind::Interrupted => {}
                Err(error) => return Err(error),
            }
        }
        Ok(())
    }
}

/// Takes all output while a second thread sends.
fn beside(child: &mut Child, taken: &mut Taken, send: impl FnOnce() + Send) -> io::Result<()> {
    thread::scope(|scope| {
        scope.spawn(send);
        let taking = taken.take_until(usize::MAX);
        if taking.is_err() {
            // a program that hangs would keep the sender waiting too
            child.kill()?;
        }
        taking
    })
}

/// Sends each line when the whole reply to the one before it has come.
fn line_by_line(mut host: Host, input: &[u8], due: &[u8], taken: &mut Taken) -> io::Result<()> {
    let ends = reply_ends(due);
    for (number, line) in lines_of(input).enumerate() {
        if host.put(line).is_err() {
            break;
        }
        if line.last() == Some(&LINE_END) {
            taken.take_until(ends.get(number).copied().unwrap_or(0))?;
        }
    }
    drop(host);
    taken.take_until(usize::MAX)
}

/// Where in an output the reply to each line of input ends.
fn reply_ends(due: &[u8]) -> Vec<usize> {
    let mut ends = Vec::new();
    let mut place = 0;
    for line in lines_of(due) {
        if starts_reply(line) && place > 0 {
            ends.push(place);
        }
        place += line.len();
    }
    ends.push(place);
    ends
}

/// Waits for the program's end and says what went wrong.
fn end(child: &mut Child, taking: io::Result<()>) -> io::Result<Option<String>> {
    if let Err(error) = taking {
        child.kill()?;
        child.wait()?;
        return Ok(Some(format!("no more output came ({error})")));
    }
    let status = child.wait()?;
    Ok((!status.success()).then(|| format!("it ended with {status}")))
}
