//! Writes a journal to measure with to standard output: workload NAME SEED LINES, or a store held
//! still, workload R|P KEPT CALLS.

use std::io::{self, BufWriter, Write};
use std::process::ExitCode;

use reference::generate::{write_still, write_workload, WORKLOADS};
use reference::node::{LINES, SHARE};
use reference::text::{DONE, STEP};

fn main() -> ExitCode {
    let arguments: Vec<String> = std::env::args().skip(1).collect();
    let mut output = BufWriter::new(io::stdout().lock());
    let Some(written) = write(&arguments, &mut output) else {
        let names = WORKLOADS.map(|(name, _)| name).join("|");
        eprintln!("usage: workload {names} SEED LINES, or workload R|P KEPT CALLS");
        return ExitCode::from(2);
    };
    match written.and_then(|()| output.flush()) {
        Ok(()) => ExitCode::SUCCESS,
        Err(error) => {
            eprintln!("workload: {error}");
            ExitCode::FAILURE
        }
    }
}

/// Writes what the arguments name; nothing where they name no journal.
fn write(arguments: &[String], output: &mut dyn Write) -> Option<io::Result<()>> {
    let [name, number, lines] = arguments else {
        return None;
    };
    let (number, lines) = (number.parse().ok()?, lines.parse().ok()?);
    let still = |kind| {
        let fits = number <= (LINES * SHARE) as u64;
        fits.then_some((kind, number))
    };
    match name.as_str() {
        "R" => still(DONE).map(|(kind, kept)| write_still(kind, kept, lines, output)),
        "P" => still(STEP).map(|(kind, kept)| write_still(kind, kept, lines, output)),
        _ => {
            let (_, workload) = WORKLOADS.iter().find(|(known, _)| known == name)?;
            Some(write_workload(*workload, number, lines, output))
        }
    }
}
