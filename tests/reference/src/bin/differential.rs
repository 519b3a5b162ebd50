//! Compares programs with the reference: differential STORED FOUND JOURNALS SEED NAME=PATH...
//!
//! STORED is the folder of stored journals, FOUND one for inputs on which a program differs. A NAME is
//! merge, replay or console.

use std::fs;
use std::io;
use std::path::{Path, PathBuf};
use std::process::ExitCode;

use reference::differential::{due_balance, due_output, first_difference, odd_inputs};
use reference::differential::{paid_in_balance, paid_in_output, run, Coverage, Feed};
use reference::generate::{input_for, Kind, Random};
use reference::playback::{Mode, MODES};

const USAGE: &str = "usage: differential STORED FOUND JOURNALS SEED merge|replay|console=PATH...";
/// From so many generated journals on, they must reach all there is in `merge`.
const ENOUGH: u64 = 200;
/// From so many on, they must do so in another program, the stored journals with them.
const ENOUGH_BESIDE: u64 = 100;
/// After so many failures a run is given up.
const TOO_MANY: u64 = 10;
/// The stored journal that must have its heat balance beside it.
const BALANCED: &str = "heat-balance";
/// The kinds of generated inputs in turn.
const KINDS: [Kind; 9] = [
    Kind::Nasty,
    Kind::Day,
    Kind::Malformed,
    Kind::Nasty,
    Kind::Crowded,
    Kind::Filling,
    Kind::Nasty,
    Kind::Day,
    Kind::Malformed,
];
/// Those for a console, where displays call.
const CONSOLE_KINDS: [Kind; 7] = [
    Kind::Filling,
    Kind::Nasty,
    Kind::Filling,
    Kind::Day,
    Kind::Filling,
    Kind::Malformed,
    Kind::Crowded,
];

fn main() -> ExitCode {
    let arguments: Vec<String> = std::env::args().skip(1).collect();
    let Some((mut test, programs, sources)) = read(&arguments) else {
        eprintln!("{USAGE}");
        return ExitCode::from(2);
    };
    for program in &programs {
        if let Err(error) = all(&mut test, program, &sources) {
            test.fail(program.name, "run", &error.to_string());
            break;
        }
    }
    println!(
        "differential: {} passed, {} failed",
        test.passed, test.failed
    );
    ExitCode::from(u8::from(test.failed > 0))
}

fn read(arguments: &[String]) -> Option<(Test, Vec<Program>, Sources)> {
    let [stored, found, journals, seed, programs @ ..] = arguments else {
        return None;
    };
    let test = Test {
        found: found.into(),
        passed: 0,
        failed: 0,
    };
    let sources = Sources {
        stored: stored.into(),
        journals: journals.parse().ok()?,
        seed: seed.parse().ok()?,
    };
    let programs = programs.iter().map(|text| Program::read(text));
    let programs: Vec<Program> = programs.collect::<Option<_>>()?;
    (!programs.is_empty()).then_some((test, programs, sources))
}

/// A program under test.
struct Program {
    name: &'static str,
    mode: Mode,
    path: PathBuf,
}

impl Program {
    fn read(text: &str) -> Option<Self> {
        let (name, path) = text.split_once('=')?;
        let &(name, mode) = MODES.iter().find(|(known, _)| *known == name)?;
        let path = path.into();
        Some(Program { name, mode, path })
    }
}

/// Where inputs come from.
struct Sources {
    stored: PathBuf,
    journals: u64,
    seed: u64,
}

impl Sources {
    /// How many inputs are generated for a program: `replay`, which differs from `merge` in little,
    /// gets fewer.
    fn count_for(&self, mode: Mode) -> u64 {
        match mode {
            Mode::Merge | Mode::Console => self.journals,
            Mode::Replay => self.journals / 4,
        }
    }
}

/// Where differences go, and the count so far.
struct Test {
    found: PathBuf,
    passed: u64,
    failed: u64,
}

fn all(test: &mut Test, program: &Program, sources: &Sources) -> io::Result<()> {
    let (name, before) = (program.name, test.passed + test.failed);
    for (what, input) in odd_inputs(program.mode) {
        let due = due_output(program.mode, &input);
        test.compare(program, &what, &input, &due, sources.seed)?;
    }
    println!(
        "{name}, odd inputs: {} runs",
        test.passed + test.failed - before
    );
    let mut reached = Coverage::new(program.mode);
    stored_journals(test, program, sources, &mut reached)?;
    println!("{name}, stored journals: {reached}");
    let (mut enough, mut what) = (ENOUGH_BESIDE, "stored and generated inputs");
    if program.mode == Mode::Merge {
        test.must_reach(name, "stored journals", &reached);
        stored_balances(test, program, &sources.stored)?;
        reached = Coverage::new(program.mode);
        (enough, what) = (ENOUGH, "generated inputs");
    }
    generated_inputs(test, program, sources, &mut reached)?;
    println!("{name}, {what}: {reached}");
    if sources.count_for(program.mode) >= enough {
        test.must_reach(name, what, &reached);
    }
    Ok(())
}

/// The files of a folder with this extension, in order.
fn files_of(folder: &Path, extension: &str) -> io::Result<Vec<PathBuf>> {
    let mut paths = Vec::new();
    for entry in fs::read_dir(folder)? {
        let path = entry?.path();
        if path.extension().is_some_and(|own| own == extension) {
            paths.push(path);
        }
    }
    paths.sort();
    Ok(paths)
}

/// A file's name without its extension.
fn name_of(path: &Path) -> String {
    let stem = path.file_stem().unwrap_or_default();
    stem.to_string_lossy().into_owned()
}

/// Every stored journal, by the output that is stored beside it: `merge` and the reference must print
/// just this, the other programs what the reference prints in their place.
fn stored_journals(
    test: &mut Test,
    program: &Program,
    sources: &Sources,
    reached: &mut Coverage,
) -> io::Result<()> {
    for path in files_of(&sources.stored, "journal")? {
        let name = name_of(&path);
        let input = fs::read(&path)?;
        let mut due = due_output(program.mode, &input);
        if program.mode == Mode::Merge {
            let stored = fs::read(path.with_extension("output"))?;
            match first_difference(&input, &stored, &due) {
                Some(difference) => test.fail("reference", &name, &difference),
                None => test.passed += 1,
            }
            due = stored;
        }
        test.compare(program, &name, &input, &due, sources.seed)?;
        reached.note(&input);
    }
    Ok(())
}

/// Every heat balance that is stored beside a journal.
fn stored_balances(test: &mut Test, program: &Program, folder: &Path) -> io::Result<()> {
    let paths = files_of(folder, "balance")?;
    for path in &paths {
        let input = fs::read(path.with_extension("journal"))?;
        test.balance(program, &name_of(path), &input, &fs::read(path)?)?;
    }
    println!("{}, stored balances: {}", program.name, paths.len());
    if !paths.iter().any(|path| name_of(path) == BALANCED) {
        let missing = format!("  none of {BALANCED}");
        test.fail(program.name, "stored balances", &missing);
    }
    Ok(())
}

/// Generated inputs, by the output of the reference. To `merge` the lines of displays are texts that
/// lack the form: it gets some of a console's inputs too.
fn generated_inputs(
    test: &mut Test,
    program: &Program,
    sources: &Sources,
    reached: &mut Coverage,
) -> io::Result<()> {
    let mut random = Random::new(sources.seed);
    let count = sources.count_for(program.mode);
    let kinds = match program.mode {
        Mode::Merge | Mode::Replay => &KINDS[..],
        Mode::Console => &CONSOLE_KINDS,
    };
    for (&kind, number) in kinds.iter().cycle().zip(0..count) {
        let lines = match kind {
            Kind::Crowded => 3_000,
            Kind::Filling => random.pick(&[800, 1_500]),
            _ => random.pick(&[10, 100, 300, 600, 1_500]),
        };
        let own = sources.seed.wrapping_add(number);
        let mode = match program.mode {
            Mode::Merge | Mode::Replay if number % 16 == 15 => Mode::Console,
            mode => mode,
        };
        let input = input_for(mode, kind, own, lines);
        let name = format!("{}-{own}-{lines}", kind.name());
        let due = due_output(program.mode, &input);
        test.compare(program, &name, &input, &due, own)?;
        reached.note(&input);
    }
    Ok(())
}

impl Test {
    /// Runs the program on an input in every way and compares each output with the one due.
    fn compare(
        &mut self,
        program: &Program,
        name: &str,
        input: &[u8],
        due: &[u8],
        seed: u64,
    ) -> io::Result<()> {
        if self.failed >= TOO_MANY {
            return Err(io::Error::other("too many failures"));
        }
        for feed in [Feed::Whole, Feed::Pieces(seed), Feed::Lines] {
            let ran = run(&program.path, input, due, feed)?;
            let difference = first_difference(input, due, &ran.output);
            if difference.is_none() && ran.fault.is_none() {
                self.passed += 1;
                continue;
            }
            let kept = self.found.join(format!("{}-{name}.journal", program.name));
            fs::create_dir_all(&self.found)?;
            fs::write(&kept, input)?;
            let what = format!("{name}, {}: see {}", feed.name(), kept.display());
            let said = [ran.fault.map(|fault| format!("  {fault}")), difference];
            let said: Vec<String> = said.into_iter().flatten().collect();
            self.fail(program.name, &what, &said.join("\n"));
        }
        Ok(())
    }

    /// Compares the reference's heat balance with the one due, and what the program prints as paid
    /// with its paid part.
    fn balance(
        &mut self,
        program: &Program,
        name: &str,
        input: &[u8],
        due: &[u8],
    ) -> io::Result<()> {
        let text = due_balance(input).unwrap_or_else(|error| error);
        if text.as_bytes() == due {
            self.passed += 1;
        } else {
            let said = format!("due:\n{}got:\n{text}", String::from_utf8_lossy(due));
            self.fail("reference", &format!("balance on {name}"), &said);
        }
        let ran = run(&program.path, input, &[], Feed::Whole)?;
        let (printed, due) = (paid_in_output(&ran.output), paid_in_balance(due));
        if due.is_some() && printed == due {
            self.passed += 1;
        } else {
            let said = format!("  due: {due:?}\n  got: {printed:?}");
            self.fail(program.name, &format!("paid on {name}"), &said);
        }
        Ok(())
    }

    fn must_reach(&mut self, program: &str, what: &str, reached: &Coverage) {
        let never = reached.never();
        if never.is_empty() {
            self.passed += 1;
        } else {
            self.fail(program, &format!("{what} never reach"), &never.join(", "));
        }
    }

    fn fail(&mut self, program: &str, what: &str, said: &str) {
        println!("FAILED {program}, {what}\n{said}");
        self.failed += 1;
    }
}
