//! The comparison: every list goes to a new process of `calls`, and from a new image through `step`; both are held against
//! the Rust.

use crate::coverage::Coverage;
use crate::dice::Dice;
use crate::draw::{self, Form, List};
use crate::fields::{difference, value_of, Difference};
use crate::host;
use crate::moods::MOODS;
use std::io::{self, Read, Write};
use std::process::{Command, Output, Stdio};
use std::sync::atomic::{AtomicU64, Ordering};
use std::sync::mpsc::{self, Receiver, Sender};
use std::thread;
use std::time::Duration;

/// The lists compared: long enough for every mood, and with all that a line can be.
pub const FORM: Form = Form { shortest: 50, longest: 1_500, spoils: true, last_picture: true };

/// Differences that are printed in full.
const SHOWN: usize = 20;

/// How many bytes a piece has: less than most frames, the longest frame with its newline, one more, one less than a page,
/// and all that a pipe holds.
const PIECES: [usize; 6] = [1, 7, 61, 62, 4_095, 65_536];

/// How often each is drawn. Most are small, so that lines are cut all through the list.
const PIECE_WEIGHTS: [u64; PIECES.len()] = [30, 30, 30, 30, 3, 1];

/// How long answers are waited for before the next piece.
const PATIENCE: Duration = Duration::from_secs(10);

pub struct Comparison {
    /// The program that is compared with the Rust.
    pub calls: String,
    pub seed: u64,
    /// The first list's number.
    pub first: u64,
    pub lists: u64,
    /// How many lists are compared at a time.
    pub jobs: u64,
}

#[derive(Default)]
struct Tally {
    calls: u64,
    /// Those of the calls that were made through `step` too.
    steps: u64,
    differences: u64,
    /// The differences to print, each behind its list's number.
    shown: Vec<(u64, String)>,
    coverage: Coverage,
}

impl Comparison {
    /// Compares the lists and prints what was found. True where calls were compared and none differs.
    pub fn run(&self) -> Result<bool, String> {
        println!(
            "{} and step against the Rust, seed {}, {} lists from number {}",
            self.calls, self.seed, self.lists, self.first
        );
        self.refuses_arguments()?;
        let mut tally = self.tally()?;
        tally.coverage.print();
        println!("through step went all but {} lines with a bad digit or an odd one", tally.calls - tally.steps);
        tally.shown.sort_by_key(|(list, _)| *list);
        tally.shown.iter().take(SHOWN).for_each(|(_, text)| println!("{text}"));
        if tally.differences > SHOWN as u64 {
            println!("and {} more", tally.differences - SHOWN as u64);
        }
        println!("{} lists, {} calls, {} differences", self.lists, tally.calls, tally.differences);
        Ok(tally.differences == 0 && tally.calls > 0)
    }

    /// Given an argument, the program says in one line on standard error what it reads, and does nothing else.
    fn refuses_arguments(&self) -> Result<(), String> {
        let output = Command::new(&self.calls).arg("--help").stdin(Stdio::null()).output();
        let output = output.map_err(|error| format!("{}: {error}", self.calls))?;
        let lines = output.stderr.split_inclusive(|&byte| byte == b'\n').count();
        if lines == 1 && output.stdout.is_empty() && output.status.success() {
            Ok(())
        } else {
            Err(format!("{} --help should write one line to standard error, and nothing else", self.calls))
        }
    }

    /// Shares the lists out: each worker takes the next one that nobody has.
    fn tally(&self) -> Result<Tally, String> {
        let taken = AtomicU64::new(0);
        let work = || {
            let mut tally = Tally::default();
            loop {
                let next = taken.fetch_add(1, Ordering::Relaxed);
                if next >= self.lists {
                    return Ok(tally);
                }
                self.compare(self.first + next, &mut tally)?;
            }
        };
        let parts: Vec<_> = thread::scope(|scope| {
            let workers: Vec<_> = (0..self.jobs).map(|_| scope.spawn(work)).collect();
            workers.into_iter().map(|worker| worker.join()).collect()
        });
        parts.into_iter().try_fold(Tally::default(), |total, part: thread::Result<Result<Tally, String>>| {
            Ok(total.plus(part.map_err(|_| "stopped by the panic above")??))
        })
    }

    fn compare(&self, number: u64, tally: &mut Tally) -> Result<(), String> {
        let _named = NamedInPanics(number);
        let list = draw::list(self.seed, number, &FORM);
        let input = text(&list, number);
        let pieces = if is_cut(number) { pieces(&input, list.dice.clone()) } else { vec![&input[..]] };
        let output = self.answers(&pieces).map_err(|error| format!("{}: {error}", self.calls))?;
        let stepped = host::compare(&list, &output.stdout);
        tally.calls += list.lines.len() as u64;
        tally.steps += stepped.calls;
        tally.coverage.count(&list);
        let of_calls = differences(&list, &output).into_iter().map(|found| ("calls", found));
        let of_step = stepped.differences.into_iter().map(|found| ("step", found));
        let mut found: Vec<_> = of_calls.chain(of_step).collect();
        found.sort_by_key(|(_, (place, _))| *place);
        for (who, (place, difference)) in found {
            tally.differences += 1;
            if tally.shown.len() < SHOWN {
                tally.shown.push((number, told(&list, number, place, who, &difference)));
            }
        }
        Ok(())
    }

    /// What a new process of the program answers. It may stop reading early; the missing answers then show.
    fn answers(&self, input: &[&[u8]]) -> io::Result<Output> {
        let piped = Stdio::piped;
        let mut program = Command::new(&self.calls).stdin(piped()).stdout(piped()).stderr(piped()).spawn()?;
        let stdin = program.stdin.take().expect("it was piped");
        let stdout = program.stdout.take().expect("it was piped");
        let mut stderr = program.stderr.take().expect("it was piped");
        let (say, answered) = mpsc::channel();
        let (mut out, mut err) = (Vec::new(), Vec::new());
        thread::scope(|scope| {
            scope.spawn(move || write_in_step(stdin, input, &answered));
            let errors = scope.spawn(|| stderr.read_to_end(&mut err));
            read_in_step(stdout, &mut out, &say)?;
            // From here on nobody is to wait for answers.
            drop(say);
            errors.join().expect("reading does not panic")
        })?;
        Ok(Output { status: program.wait()?, stdout: out, stderr: err })
    }
}

/// Writes each piece once every line before it is answered: written at once, the pieces would be read as one. Where
/// answers do not come nothing more is written, and the missing ones show.
fn write_in_step(mut stdin: impl Write, pieces: &[&[u8]], answered: &Receiver<usize>) -> io::Result<()> {
    let (mut asked, mut had) = (0, 0);
    for piece in pieces {
        while had < asked {
            had += answered.recv_timeout(PATIENCE).map_err(io::Error::other)?;
        }
        stdin.write_all(piece)?;
        asked += lines_closed(piece);
    }
    Ok(())
}

/// Reads to the end, and says after each read how many answers were in it.
fn read_in_step(mut stdout: impl Read, out: &mut Vec<u8>, say: &Sender<usize>) -> io::Result<()> {
    let mut block = [0; 65_536];
    loop {
        let n = stdout.read(&mut block)?;
        if n == 0 {
            return Ok(());
        }
        out.extend(&block[..n]);
        // Once all is written nobody listens any more.
        let _ = say.send(lines_closed(&block[..n]));
    }
}

fn lines_closed(text: &[u8]) -> usize {
    text.iter().filter(|&&byte| byte == b'\n').count()
}

/// The list as the program's input. Every second one ends without a newline, which closes its last line all the same.
fn text(list: &List, number: u64) -> Vec<u8> {
    let mut text = Vec::new();
    for line in &list.lines {
        text.extend(&line.text);
        text.push(b'\n');
    }
    if number % 2 == 1 {
        text.pop();
    }
    text
}

/// Whether the list is written in pieces: every third one is. Which ones moves on by one with each round of the moods, so
/// that every mood has some.
fn is_cut(number: u64) -> bool {
    let round = number / MOODS.len() as u64;
    (number + round) % 3 == 0
}

/// The input in pieces, so that reads cut its lines at many places.
fn pieces(input: &[u8], mut dice: Dice) -> Vec<&[u8]> {
    let mut pieces = Vec::new();
    let mut rest = input;
    while !rest.is_empty() {
        let size = PIECES[dice.weighted(&PIECE_WEIGHTS)];
        let (piece, behind) = rest.split_at(size.min(rest.len()));
        pieces.push(piece);
        rest = behind;
    }
    pieces
}

/// Each line that `calls` does not answer as the Rust answers it, by its place, and what else is wrong behind the last one.
fn differences(list: &List, output: &Output) -> Vec<(usize, Difference)> {
    let mut differences = Vec::new();
    let mut answers = output.stdout.split_inclusive(|&byte| byte == b'\n');
    for (place, line) in list.lines.iter().enumerate() {
        let expected = line.answer.line();
        let found = answers.next().unwrap_or_default();
        let differs = match found.strip_suffix(b"\n") {
            Some(found) => difference(value_of(line.call.as_ref()), expected.as_bytes(), found),
            None => Some(Difference {
                field: "line".into(),
                expected: expected + "\\n",
                found: found.escape_ascii().to_string(),
            }),
        };
        differences.extend(differs.map(|difference| (place, difference)));
    }
    let behind = wrong_behind(answers.count(), output);
    differences.extend(behind.into_iter().map(|difference| (list.lines.len(), difference)));
    differences
}

/// What is wrong besides the answers. A Rattle program always ends with status 0, unless a signal ends it; it speaks of
/// trouble on standard error alone, so that nothing may stand there.
fn wrong_behind(more: usize, output: &Output) -> Vec<Difference> {
    let mut wrong = Vec::new();
    if more > 0 {
        wrong.push(Difference { field: "lines more".into(), expected: "0".into(), found: more.to_string() });
    }
    if !output.status.success() {
        wrong.push(Difference { field: "end".into(), expected: "status 0".into(), found: output.status.to_string() });
    }
    if !output.stderr.is_empty() {
        wrong.push(Difference { field: "standard error".into(), expected: "".into(), found: shown(&output.stderr) });
    }
    wrong
}

/// The most of a line that is printed.
const WIDEST: usize = 80;

/// The beginning of a text, with what cannot be printed escaped.
fn shown(text: &[u8]) -> String {
    text[..text.len().min(WIDEST)].escape_ascii().to_string()
}

fn told(list: &List, number: u64, place: usize, who: &str, difference: &Difference) -> String {
    let frame = list.lines.get(place).map_or("the end".into(), |line| shown(&line.text));
    let Difference { field, expected, found } = difference;
    let mood = list.mood;
    let line = place + 1;
    format!("list {number} ({mood}), line {line}, {frame}: {who}: {field}: expected '{expected}', found '{found}'")
}

/// Says which list it was when the Rust or the driver panics in it.
struct NamedInPanics(u64);

impl Drop for NamedInPanics {
    fn drop(&mut self) {
        if thread::panicking() {
            eprintln!("oracle: that was in list {}", self.0);
        }
    }
}

impl Tally {
    fn plus(mut self, other: Tally) -> Tally {
        self.calls += other.calls;
        self.steps += other.steps;
        self.differences += other.differences;
        self.shown.extend(other.shown);
        self.coverage.add(&other.coverage);
        self
    }
}

#[cfg(test)]
mod tests {
    use super::*;
    use std::os::unix::process::ExitStatusExt;
    use std::process::ExitStatus;

    fn ended(status: i32, stderr: &[u8]) -> Output {
        Output { status: ExitStatus::from_raw(status), stdout: Vec::new(), stderr: stderr.to_vec() }
    }

    fn fields(wrong: &[Difference]) -> Vec<&str> {
        wrong.iter().map(|difference| difference.field.as_str()).collect()
    }

    #[test]
    fn what_stands_on_standard_error_is_a_difference() {
        assert_eq!(wrong_behind(0, &ended(0, b"")), []);
        let wrong = wrong_behind(0, &ended(0, b"a read failed\n"));
        assert_eq!(fields(&wrong), ["standard error"]);
        assert_eq!(wrong[0].found, "a read failed\\n");
    }

    #[test]
    fn what_else_is_wrong_behind_the_answers_is_told_too() {
        assert_eq!(fields(&wrong_behind(2, &ended(9, b"x"))), ["lines more", "end", "standard error"]);
    }

    #[test]
    fn pieces_are_the_input_and_come_out_the_same() {
        let input: Vec<u8> = (0..20_000u32).map(|place| place as u8).collect();
        for number in 0..30 {
            let pieces_of = || pieces(&input, Dice::new(1, number));
            assert_eq!(pieces_of().concat(), input);
            assert_eq!(pieces_of(), pieces_of());
        }
    }

    #[test]
    fn a_third_of_each_moods_lists_is_cut() {
        for mood in 0..MOODS.len() as u64 {
            let lists = (0..30).map(|round| round * MOODS.len() as u64 + mood);
            assert_eq!(lists.filter(|&number| is_cut(number)).count(), 10, "{mood}");
        }
    }

    #[test]
    fn a_piece_waits_for_the_answers_before_it() {
        let pieces: [&[u8]; 3] = [b"0f\n0", b"f\n", b"0f"];
        let written = |answers: &[usize]| {
            let (say, answered) = mpsc::channel();
            answers.iter().for_each(|&answers| say.send(answers).unwrap());
            drop(say);
            let mut stdin = Vec::new();
            let all = write_in_step(&mut stdin, &pieces, &answered).is_ok();
            (stdin, all)
        };
        assert_eq!(written(&[]), (b"0f\n0".to_vec(), false));
        assert_eq!(written(&[1]), (b"0f\n0f\n".to_vec(), false));
        assert_eq!(written(&[1, 1]), (b"0f\n0f\n0f".to_vec(), true));
    }

    #[test]
    fn every_size_of_piece_is_drawn() {
        let input = vec![b'0'; 1_000_000];
        let sizes: Vec<usize> =
            (0..30).flat_map(|number| pieces(&input, Dice::new(1, number))).map(|piece| piece.len()).collect();
        assert!(PIECES.iter().all(|size| sizes.contains(size)));
    }
}
