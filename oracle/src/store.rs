//! What the gate runs `replay` and `calls` on without the Rust, and what they must print.
//!
//! For `replay` the named lists and some random ones with their answers. A line `= NAME` begins a list, from new; behind it
//! every frame takes a line, and its answer the next. Bytes of an answer that are left aside are two dots each: a stored dot
//! stands for any digit. For `calls` one long list.

use crate::draw::{self, Form};
use crate::fields::{dotted, value_of, ANY};
use crate::long;
use crate::named::{self, Answered};
use std::fs;
use std::path::{Path, PathBuf};

/// The random lists that are stored: short ones, so that the file stays small.
const FORM: Form = Form { shortest: 100, longest: 400, spoils: false, last_picture: false };
const RANDOM: u64 = 48;
const SEED: u64 = 1;

/// What begins a list's name, so that no frame may begin with it.
const NAME: char = '=';

/// The named list that the one for `calls` begins with: document 01's five lines.
const OPENING: &str = "document-example";

/// A list for `replay`.
struct Stored {
    name: String,
    lines: Vec<Answered>,
}

/// Writes stdin and stdout of `replay` and `calls` to their folders among the crates, once all of it is known.
pub fn store(named_lists: &Path, crates: &Path) -> Result<(), String> {
    let mut lists = named(named_lists)?;
    let opening =
        lists.iter().find(|list| list.name == OPENING).ok_or_else(|| format!("there is no list {OPENING}"))?;
    let long = long::list(opening.lines.iter().map(|line| line.frame.as_str()))?;
    lists.extend((0..RANDOM).map(random));
    let replayed = lists.iter().map(stored).collect::<Result<String, _>>()?;
    let printed = printed(&lists);
    let answers = answers(&long)?;

    let input = long::text(&long);
    write(crates, "replay/stdin", replayed.as_bytes())?;
    write(crates, "replay/stdout", printed.as_bytes())?;
    write(crates, "calls/stdin", &input)?;
    write(crates, "calls/stdout", answers.as_bytes())?;
    println!("calls: {} lines, {} bytes", long.len(), input.len());
    println!("replay: {}", printed.lines().last().unwrap_or_default());
    Ok(())
}

/// The named lists of a folder.
fn named(folder: &Path) -> Result<Vec<Stored>, String> {
    let read = |file: PathBuf| {
        let name = file.file_stem().unwrap_or_default().to_string_lossy().into_owned();
        let text = fs::read_to_string(&file).map_err(|error| format!("{}: {error}", file.display()))?;
        let lines = named::answered(&text).map_err(|wrong| format!("{}, {wrong}", file.display()))?;
        Ok(Stored { name, lines })
    };
    text_files(folder)?.into_iter().map(read).collect()
}

/// The random list of that number.
fn random(number: u64) -> Stored {
    let answered = |line: &draw::Line| Answered {
        frame: String::from_utf8_lossy(&line.text).into_owned(),
        answer: our_answer(line),
        wrong: None,
    };
    let lines = draw::list(SEED, number, &FORM).lines.iter().map(answered).collect();
    Stored { name: format!("random-{number:02}"), lines }
}

/// A list as it is stored.
fn stored(list: &Stored) -> Result<String, String> {
    let name = &list.name;
    let mut text = format!("{NAME} {name}\n");
    for Answered { frame, answer, wrong } in &list.lines {
        if frame.starts_with(NAME) {
            return Err(format!("{name}: the frame {frame} would be taken for a list's name"));
        }
        text += &format!("{frame}\n{}\n", wrong.as_ref().unwrap_or(answer));
    }
    Ok(text)
}

/// What `replay` must print: for each wrong answer its list and its call, counted through all lists, and both answers; then
/// the counts.
fn printed(lists: &[Stored]) -> String {
    let mut text = String::new();
    let mut calls = 0;
    let mut differences = 0;
    for (place, list) in lists.iter().enumerate() {
        for line in &list.lines {
            calls += 1;
            if let Some(wrong) = &line.wrong {
                differences += 1;
                text += &format!("list {}, call {calls}: stored {wrong}\nfound {}\n", place + 1, line.answer);
            }
        }
    }
    text + &format!("{} lists, {calls} calls, {differences} differences\n", lists.len())
}

/// What `calls` must print.
fn answers(lines: &[draw::Line]) -> Result<String, String> {
    lines.iter().map(|line| whole(our_answer(line)).map(|answer| answer + "\n")).collect()
}

/// An answer with no byte left aside.
fn whole(answer: String) -> Result<String, String> {
    if answer.contains(ANY) {
        return Err(format!(
            "{answer} has bytes left aside, and what calls prints is compared whole: fill them in from document 02"
        ));
    }
    Ok(answer)
}

/// Our answer to a line, as far as the Rust says it.
fn our_answer(line: &draw::Line) -> String {
    dotted(value_of(line.call.as_ref()), &line.answer.line())
}

fn write(crates: &Path, name: &str, text: &[u8]) -> Result<(), String> {
    let file = crates.join(name);
    fs::write(&file, text).map_err(|error| format!("{}: {error}", file.display()))
}

/// The folder's files *.txt, by name.
fn text_files(folder: &Path) -> Result<Vec<PathBuf>, String> {
    let wrong = |error: std::io::Error| format!("{}: {error}", folder.display());
    let entries: Result<Vec<_>, _> = fs::read_dir(folder).map_err(wrong)?.map(|entry| Ok(entry?.path())).collect();
    let mut files = entries.map_err(wrong)?;
    files.retain(|file| file.extension().is_some_and(|extension| extension == "txt"));
    files.sort();
    Ok(files)
}

#[cfg(test)]
mod tests {
    use super::*;

    /// A list with right answers, and wrong ones in their stead where there are any.
    fn list(name: &str, lines: &[(&str, &str, Option<&str>)]) -> Stored {
        let answered = |&(frame, answer, wrong): &(&str, &str, Option<&str>)| Answered {
            frame: frame.into(),
            answer: answer.into(),
            wrong: wrong.map(String::from),
        };
        Stored { name: name.into(), lines: lines.iter().map(answered).collect() }
    }

    #[test]
    fn a_frame_and_its_answer_take_a_line_each() {
        let two = list("two", &[("0f", "00ffff0000000000000000", None), ("", "09ffff", None)]);
        assert_eq!(stored(&two).unwrap(), "= two\n0f\n00ffff0000000000000000\n\n09ffff\n");
    }

    #[test]
    fn a_frame_that_looks_like_a_name_is_refused() {
        assert!(stored(&list("one", &[("=0f", "09ffff", None)])).unwrap_err().contains("list's name"));
        assert!(stored(&list("one", &[("0f=", "09ffff", None)])).is_ok());
    }

    #[test]
    fn a_wrong_answer_is_stored_and_will_be_printed_with_the_right_one() {
        let right = ("", "09ffff", None);
        let lists = [list("right", &[right]), list("wrong", &[right, ("0", "09ffff", Some("09ff")), right])];
        assert_eq!(stored(&lists[1]).unwrap(), "= wrong\n\n09ffff\n0\n09ff\n\n09ffff\n");
        assert_eq!(printed(&lists), "list 2, call 3: stored 09ff\nfound 09ffff\n2 lists, 4 calls, 1 differences\n");
        assert_eq!(printed(&lists[..1]), "1 lists, 1 calls, 0 differences\n");
    }

    #[test]
    fn an_answer_for_calls_has_no_bytes_left_aside() {
        assert!(whole("00ffff..".into()).unwrap_err().contains("document 02"));
        assert_eq!(whole("00ffff00".into()).unwrap(), "00ffff00");
    }
}
