//! Times the Rust scheduler and ours on the same lists of calls. ../README.md says what is measured and how.
//!
//!   lists                   the lists of calls, drawn beside the Rust
//!   original                the Rust, as a kernel in Rust calls it
//!   step, image             the host entry, and the image that it works on
//!   plain                   what the host entry does, in plain Rust
//!   ours, module            our functions by value and lent
//!   program                 the program calls
//!   sizes, check            that values have the sizes they should, and that all answer alike
//!   contenders, measure     who is timed on which list; rounds in which they take turns
//!   report, table, picture  what came of it
//!
//! The frames, the Rust behind document 01's calls, the comparison of answers and the dice are those of the oracle.

mod check;
mod contenders;
mod image;
mod lists;
mod measure;
mod module;
mod original;
mod ours;
mod picture;
mod plain;
mod program;
mod report;
mod sizes;
mod step;
mod table;

#[path = "../../oracle/src/answers.rs"]
#[allow(dead_code)]
mod answers;
#[path = "../../oracle/src/dice.rs"]
#[allow(dead_code)]
mod dice;
#[path = "../../oracle/src/driver.rs"]
#[allow(dead_code)]
mod driver;
#[path = "../../oracle/src/fields.rs"]
#[allow(dead_code)]
mod fields;
#[path = "../../oracle/src/frames.rs"]
#[allow(dead_code)]
mod frames;

use crate::contenders::{Mixed, Ticks};
use crate::report::Report;
use std::path::PathBuf;
use std::process::ExitCode;

const USAGE: &str = "usage: bench/run PATH-OF-THE-RUST [--rounds N] [--calls PROGRAM]";

const ROUNDS: usize = 15;

/// Why nothing was measured.
#[derive(Debug)]
pub enum Wrong {
    /// Two that should answer alike do not.
    Different(String),
    /// It could not be done.
    Failed(String),
}

#[derive(Default)]
struct Options {
    rounds: usize,
    calls: PathBuf,
    /// The folder for everything that is written.
    into: PathBuf,
    date: String,
    rustc: String,
}

fn main() -> ExitCode {
    let (status, what) = match options().and_then(|options| run(&options)) {
        Ok(()) => return ExitCode::SUCCESS,
        Err(Wrong::Different(what)) => (1, format!("answers differ: {what}")),
        Err(Wrong::Failed(what)) => (2, what),
    };
    eprintln!("bench: {what}");
    ExitCode::from(status)
}

fn options() -> Result<Options, Wrong> {
    let usage = || Wrong::Failed(USAGE.into());
    let mut options = Options { rounds: ROUNDS, ..Options::default() };
    let words: Vec<String> = std::env::args().skip(1).collect();
    for option in words.chunks(2) {
        let [name, value] = option else { return Err(usage()) };
        match name.as_str() {
            "--rounds" => options.rounds = value.parse().ok().filter(|&rounds| rounds > 0).ok_or_else(usage)?,
            "--calls" => options.calls = value.into(),
            "--into" => options.into = value.into(),
            "--date" => options.date = value.clone(),
            "--rustc" => options.rustc = value.clone(),
            _ => return Err(usage()),
        }
    }
    Ok(options)
}

/// Draws the lists, checks that all answer alike, times them and says what came of it.
fn run(options: &Options) -> Result<(), Wrong> {
    sizes::check()?;
    let (mut mixed, mut ticks) = (Vec::new(), Vec::new());
    for list in [lists::machine(), lists::queues()] {
        ticks.push(Ticks::of(lists::ticks_of(&list))?);
        mixed.push(Mixed::of(list, &options.calls, &options.into)?);
    }
    let both = || mixed.iter().zip(&ticks);
    let lists: Vec<String> =
        both().flat_map(|(mixed, ticks)| [&mixed.checked, &ticks.checked]).map(report::described).collect();
    println!("{}\nAll answer alike. {} rounds follow.\n", lists.join("\n"), options.rounds);

    let mut contenders = Vec::new();
    for (mixed, ticks) in both() {
        contenders.extend(mixed.contenders());
        contenders.extend(ticks.contenders());
    }
    let report = Report::new(options, lists, measure::in_rounds(contenders, options.rounds)?);
    print!("{}", report.plain());
    report.write(&options.into)
}
