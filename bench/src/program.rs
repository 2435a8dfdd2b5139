//! The program calls, as a process of its own that is given all frames of a list as lines of a file.

use crate::check::Checked;
use crate::frames::{self, digits_of, Call};
use crate::step::{Frame, Host};
use crate::Wrong;
use kscheduler::MAX_TASKS;
use std::fs::{self, File};
use std::path::{Path, PathBuf};
use std::process::{Command, Stdio};
use std::time::{Duration, Instant};

/// How long a run should take, so that starting the process is a small part of it, and how many copies of a list there
/// are at most.
const RUN: Duration = Duration::from_secs(1);
const MOST_COPIES: usize = 200;

/// The copies that are checked: two, so that the way from one to the next is among them.
const CHECKED_COPIES: usize = 2;

pub struct Program {
    program: PathBuf,
    /// The file with the frames, and how many lines it has.
    frames: PathBuf,
    pub lines: usize,
}

impl Program {
    /// Compares the program's answers with those of `step`, and writes the file that is timed.
    pub fn checked(program: &Path, list: &Checked, folder: &Path) -> Result<Program, Wrong> {
        let copy = copy_of(list);
        let frames = folder.join(format!("{}.frames", list.list.name));
        let mut checked = Program { program: program.into(), frames, lines: 0 };
        checked.write(&copy, CHECKED_COPIES)?;
        let answers = folder.join(format!("{}.answers", list.list.name));
        checked.run(create(&answers)?.into())?;
        let found = fs::read(&answers).map_err(|error| failed(&answers, &error))?;
        compare(&copy, &found)?;

        let one = checked.timed()?.as_secs_f64() / CHECKED_COPIES as f64;
        let copies = (RUN.as_secs_f64() / one).ceil() as usize;
        checked.write(&copy, copies.clamp(1, MOST_COPIES))?;
        Ok(checked)
    }

    /// Times a whole run, from the start of the process to its end. What it answers goes to /dev/null.
    pub fn timed(&self) -> Result<Duration, Wrong> {
        self.run(Stdio::null())
    }

    fn run(&self, output: Stdio) -> Result<Duration, Wrong> {
        let input = File::open(&self.frames).map_err(|error| failed(&self.frames, &error))?;
        let mut command = Command::new(&self.program);
        command.stdin(input).stdout(output);
        let begin = Instant::now();
        let status = command.status().map_err(|error| failed(&self.program, &error))?;
        let time = begin.elapsed();
        match status.success() {
            true => Ok(time),
            false => Err(Wrong::Failed(format!("{} ended with {status}", self.program.display()))),
        }
    }

    fn write(&mut self, copy: &[Call], copies: usize) -> Result<(), Wrong> {
        let lines: String = copy.iter().map(|call| call.line() + "\n").collect();
        self.lines = copy.len() * copies;
        fs::write(&self.frames, lines.repeat(copies)).map_err(|error| failed(&self.frames, &error))
    }
}

/// A list with its set-up, and behind it all slots terminated: so the next copy starts from the same state, but for the
/// microseconds.
fn copy_of(list: &Checked) -> Vec<Call> {
    let terminates = (0..MAX_TASKS as u64).map(|slot| Call::new(frames::TERMINATE, &[slot]));
    list.list.set_up.iter().chain(&list.list.calls).cloned().chain(terminates).collect()
}

/// Holds the program's lines against what `step` answers to the same frames.
fn compare(copy: &[Call], found: &[u8]) -> Result<(), Wrong> {
    let mut host = Host::new()?;
    let mut lines = frames::lines(found);
    for place in 0..copy.len() * CHECKED_COPIES {
        let call = &copy[place % copy.len()];
        let expected = host.answered(&Frame::of(call)).map(digits_of).unwrap_or_default();
        let line = lines.next().unwrap_or_default();
        if line != expected {
            let (expected, line) = (expected.escape_ascii(), line.escape_ascii());
            let both = format!("line {}, {}: step answered {expected}, calls {line}", place + 1, call.line());
            return Err(Wrong::Different(both));
        }
    }
    match lines.next() {
        None => Ok(()),
        Some(line) => Err(Wrong::Different(format!("calls wrote a line too many: {}", line.escape_ascii()))),
    }
}

fn create(path: &Path) -> Result<File, Wrong> {
    File::create(path).map_err(|error| failed(path, &error))
}

fn failed(path: &Path, error: &dyn std::fmt::Display) -> Wrong {
    Wrong::Failed(format!("{}: {error}", path.display()))
}
