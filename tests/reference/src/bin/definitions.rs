//! Writes a crate of cases for the definitions in antt: definitions SEED COUNT FOLDER.

use std::path::Path;
use std::process::ExitCode;

use reference::definitions::write_crate;

const USAGE: &str = "usage: definitions SEED COUNT FOLDER";

fn main() -> ExitCode {
    let arguments: Vec<String> = std::env::args().skip(1).collect();
    let Some((seed, count, folder)) = read(&arguments) else {
        eprintln!("{USAGE}");
        return ExitCode::from(2);
    };
    match write_crate(Path::new(folder), seed, count) {
        Ok(sets) => {
            for (title, tally) in sets {
                println!("{title}: {tally}");
            }
            ExitCode::SUCCESS
        }
        Err(error) => {
            eprintln!("definitions: {error}");
            ExitCode::FAILURE
        }
    }
}

fn read(arguments: &[String]) -> Option<(u64, usize, &String)> {
    let [seed, count, folder] = arguments else {
        return None;
    };
    Some((seed.parse().ok()?, count.parse().ok()?, folder))
}
