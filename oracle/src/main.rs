//! The Rust scheduler as an oracle for the program `calls` and the host entry `step`. ../README.md says what is compared and
//! how.
//!
//!   frames, answers               document 01's lines: calls read from them, answers written to them
//!   driver                        the Rust behind them, with the picks and holders that it does not report
//!   fields                        answers by field: two compared, and the Rust's written with room for ours
//!   image                         the Rust's state as document 01's image, and two images compared
//!   host                          lists of calls through `step`, each compared
//!   dice, moods, aim, spoil, draw random lists
//!   compare, coverage             the comparison, and what it reached
//!   named, long, store            lists that are kept with their answers

mod aim;
mod answers;
mod compare;
mod coverage;
mod dice;
mod draw;
mod driver;
mod fields;
mod frames;
mod host;
mod image;
mod long;
mod moods;
mod named;
mod spoil;
mod store;

use crate::compare::Comparison;
use crate::driver::Driver;
use std::io::{self, BufWriter, Read, Write};
use std::path::Path;
use std::process::ExitCode;
use std::thread;

const USAGE: &str = "usage:
  oracle answer                    answers the frames of standard input, as calls does
  oracle compare [OPTION VALUE]... compares calls and step with the Rust: --calls PROGRAM, --lists, --first, --seed, --jobs NUMBER
  oracle show LIST SEED            prints a random list: each frame with the Rust's answer
  oracle store FOLDER CRATES       writes what the gate runs replay and calls on: the named lists of a folder, random ones, a long one";

/// How the program ends: all is well, an answer differs, it could not be done, or the frames left the domain.
const WELL: u8 = 0;
const DIFFERENT: u8 = 1;
const FAILED: u8 = 2;
const OUTSIDE: u8 = 3;

fn main() -> ExitCode {
    let words: Vec<String> = std::env::args().skip(1).collect();
    let words: Vec<&str> = words.iter().map(String::as_str).collect();
    let ended = match words.as_slice() {
        ["answer"] => answer().map_err(|error| error.to_string()),
        ["compare", options @ ..] => compare(options),
        ["show", list, seed] => show(list, seed),
        ["store", folder, crates] => store::store(Path::new(folder), Path::new(crates)).map(|()| WELL),
        _ => Err(USAGE.into()),
    };
    ExitCode::from(ended.unwrap_or_else(|wrong| {
        eprintln!("oracle: {wrong}");
        FAILED
    }))
}

fn answer() -> io::Result<u8> {
    let mut input = Vec::new();
    io::stdin().read_to_end(&mut input)?;
    let mut out = BufWriter::new(io::stdout().lock());
    let mut rust = Driver::new();
    for (place, line) in frames::lines(&input).enumerate() {
        match rust.answer_line(line) {
            Ok(answer) => writeln!(out, "{}", answer.line())?,
            Err(outside) => {
                out.flush()?;
                eprintln!("oracle: stopped before line {}: {outside}", place + 1);
                return Ok(OUTSIDE);
            }
        }
    }
    out.flush()?;
    Ok(WELL)
}

fn compare(options: &[&str]) -> Result<u8, String> {
    let cores = thread::available_parallelism().map_or(1, |cores| cores.get() as u64);
    let mut comparison = Comparison { calls: "target/bin/calls".into(), seed: 1, first: 0, lists: 24_000, jobs: cores };
    for option in options.chunks(2) {
        match option {
            ["--calls", program] => comparison.calls = program.to_string(),
            ["--seed", seed] => comparison.seed = number(seed)?,
            ["--first", list] => comparison.first = number(list)?,
            ["--lists", lists] => comparison.lists = number(lists)?,
            ["--jobs", jobs] => comparison.jobs = number(jobs)?.max(1),
            _ => return Err(USAGE.into()),
        }
    }
    if !host::IS_LINKED {
        return Err("step is not in this program; oracle/run builds one that has it".into());
    }
    if comparison.lists == 0 {
        return Err("no list is to be compared".into());
    }
    Ok(if comparison.run()? { WELL } else { DIFFERENT })
}

fn show(list: &str, seed: &str) -> Result<u8, String> {
    let list = draw::list(number(seed)?, number(list)?, &compare::FORM);
    let mut out = BufWriter::new(io::stdout().lock());
    for line in &list.lines {
        writeln!(out, "{} {}", line.text.escape_ascii(), line.answer.line()).map_err(|error| error.to_string())?;
    }
    Ok(WELL)
}

fn number(word: &str) -> Result<u64, String> {
    word.parse().map_err(|_| format!("{word} is no number"))
}
