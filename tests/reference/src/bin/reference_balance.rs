//! The heat balance of a journal from standard input, settings line first: reference-balance.
//!
//! It prints a line for each meter of which any part is not 0: count and sum of what was sent in,
//! was paid, is open at the checkpoint and is still kept.

use std::io::{self, Read, Write};
use std::process::ExitCode;

use reference::monitor::{balance_text, Run};

fn main() -> ExitCode {
    if std::env::args().len() > 1 {
        eprintln!("usage: reference-balance");
        return ExitCode::from(2);
    }
    match write_balance() {
        Ok(()) => ExitCode::SUCCESS,
        Err(error) => {
            eprintln!("reference-balance: {error}");
            ExitCode::FAILURE
        }
    }
}

fn write_balance() -> io::Result<()> {
    let mut journal = Vec::new();
    io::stdin().lock().read_to_end(&mut journal)?;
    let run = Run::play(&journal).map_err(io::Error::other)?;
    io::stdout().lock().write_all(balance_text(&run).as_bytes())
}
