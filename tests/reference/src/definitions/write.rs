//! The crate of generated cases: hand-written laws and the equations, some files of them.

use std::fs;
use std::io;
use std::path::Path;

use super::counts::counts;
use super::heat_statement::{of_box, of_paid};
use super::heats;
use super::host_statement::{of_call, of_opening};
use super::marks::{marks, Marks};
use super::means::means;
use super::pick;
use super::statement;
use super::tally::Tally;
use super::texts;
use crate::generate::{Host, Random};
use crate::text::Wish;

/// The equations that one file holds.
const FILE_CASES: usize = 100;

/// The hand-written files: names and texts.
const LAWS: [(&str, &str); 9] = [
    ("Packed", include_str!("laws/Packed.antt.txt")),
    ("Rows", include_str!("laws/Rows.antt.txt")),
    ("Meters", include_str!("laws/Meters.antt.txt")),
    ("Ring", include_str!("laws/Ring.antt.txt")),
    ("Stores", include_str!("laws/Stores.antt.txt")),
    ("Quick", include_str!("laws/Quick.antt.txt")),
    ("Compared", include_str!("laws/Compared.antt.txt")),
    ("Cases", include_str!("laws/Cases.antt.txt")),
    ("Heats", include_str!("laws/Heats.antt.txt")),
];

/// The head of every file of equations.
const HEAD: &str = include_str!("laws/Head.antt.txt");

/// Equations of one kind: what they are of, their files' name, the equations, their sorts.
struct Set {
    title: &'static str,
    name: &'static str,
    equations: Vec<String>,
    tally: Tally,
}

/// Writes the crate's files below a folder and says how many cases of each sort they have.
pub fn write_crate(folder: &Path, seed: u64, count: usize) -> io::Result<Vec<(String, Tally)>> {
    fs::create_dir_all(folder.join("src"))?;
    fs::create_dir_all(folder.join("proofs"))?;
    fs::write(
        folder.join("src/lib.rt"),
        "// Generated cases.\n#![tactic(auto)]\n",
    )?;
    let mut lib = "-- Generated cases, and the laws that they are computed by.\n".to_string();
    let mut put = |name: &str, text: &str| {
        lib.push_str(&format!("pub mod {name}\n"));
        fs::write(folder.join(format!("proofs/{name}.antt")), text)
    };
    for (name, text) in LAWS {
        put(name, text)?;
    }
    let mut tallies = Vec::new();
    for set in sets(seed, count) {
        for (number, part) in set.equations.chunks(FILE_CASES).enumerate() {
            let text = format!("{HEAD}\n{}", part.concat());
            put(&format!("{}{number}", set.name), &text)?;
        }
        tallies.push((set.title.to_string(), set.tally));
    }
    fs::write(folder.join("proofs/Lib.antt"), lib)?;
    Ok(tallies)
}

/// All sets, for so many calls on what a host lends.
fn sets(seed: u64, count: usize) -> Vec<Set> {
    let mut random = Random::new(seed ^ 0x616E_7474_0000_0000);
    let random = &mut random;
    let (host, call, node) = (count - count / 3, of_call, statement::of_node);
    vec![
        set(("host-made calls", "Host"), call, |tally| {
            pick::host_calls(random, host, tally)
        }),
        set(("calls at the states' edges", "Edge"), call, |tally| {
            pick::edge_calls(random, host, tally)
        }),
        set(("journal calls", "Journal"), call, |tally| {
            pick::journal_calls(random, count / 3, tally)
        }),
        set(("acknowledgements", "Acknowledge"), call, |tally| {
            pick::display_calls(random, Wish::Acknowledge, count / 5, tally)
        }),
        set(("fetches", "Fetch"), call, |tally| {
            pick::display_calls(random, Wish::Fetch, count / 5, tally)
        }),
        set(("calls on nodes", "Node"), node, |tally| {
            pick::node_calls(random, 4 * count, tally)
        }),
        set(("openings", "Opening"), of_opening, |tally| {
            pick::openings(random, count / 5, tally)
        }),
        set(
            ("means", "Mean"),
            |number, &(sum, count): &(i64, u32)| statement::of_mean(number, sum, count),
            |tally| means(random, 2 * count, tally),
        ),
        set(
            ("searches of marks", "Mark"),
            |number, search: &Marks| statement::of_marks(number, search),
            |tally| marks(random, count, tally),
        ),
        set(
            ("steps to settle", "Steps"),
            |number, (host, steps): &(Host, u32)| statement::of_steps(number, host, *steps),
            |tally| counts(random, count, tally),
        ),
        set(("open and kept", "Box"), of_box, |tally| {
            heats::boxes(random, count / 2, tally)
        }),
        set(("paid", "Paid"), of_paid, |tally| {
            heats::payments(random, count / 2, tally)
        }),
        set(
            ("journal texts", "CallText"),
            |number, text: &Vec<u8>| statement::of_call_text(number, text),
            |tally| texts::call_texts(random, 2 * count, tally),
        ),
        set(
            ("settings texts", "SettingsText"),
            |number, text: &Vec<u8>| statement::of_settings_text(number, text),
            |tally| texts::settings_texts(random, count, tally),
        ),
    ]
}

/// One set: its questions, each put as an equation.
fn set<Q>(
    (title, name): (&'static str, &'static str),
    of: impl Fn(usize, &Q) -> String,
    questions: impl FnOnce(&mut Tally) -> Vec<Q>,
) -> Set {
    let mut tally = Tally::default();
    let equations = questions(&mut tally)
        .iter()
        .enumerate()
        .map(|(number, question)| of(number, question))
        .collect();
    Set {
        title,
        name,
        equations,
        tally,
    }
}
