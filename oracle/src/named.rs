//! Named lists: a text file each, written by hand, with the paper's answers where the paper states them.
//!
//! A line of the file is a frame, with spaces where they help reading; `""` stands for a blank line, `\r` for a carriage
//! return, and what follows `#` is a remark. `=> ANSWER` behind a frame is the paper's answer, and the Rust's must be the
//! same; fields left aside are not in it. A line `outside` says that the next call is outside demand 2's domain: from
//! there on the Rust is not asked, and every frame needs the paper's answer, which is our whole answer there.
//! `=/=> ANSWER` behind that is a wrong answer, to be stored in the right one's stead.

use crate::driver::Driver;
use crate::fields::{dotted, value_of, ANY};
use crate::frames::Call;

/// A frame of a list, and its answer.
#[derive(Debug)]
pub struct Answered {
    pub frame: String,
    /// Our answer as far as the Rust or the paper says it.
    pub answer: String,
    /// What is stored in its stead, where that is to be wrong.
    pub wrong: Option<String>,
}

/// The frames and answers of a named list, or what is wrong with it.
pub fn answered(text: &str) -> Result<Vec<Answered>, String> {
    let mut reader = Reader { rust: Driver::new(), domain: Domain::Inside };
    let mut lines = Vec::new();
    for (place, line) in text.lines().enumerate() {
        let (line, _remark) = line.split_once('#').unwrap_or((line, ""));
        let (line, wrong) = split_off(line, "=/=>");
        let (frame, paper) = split_off(line, "=>");
        match unspaced(frame).as_str() {
            "" => {}
            "outside" => reader.domain = Domain::AtItsEdge,
            frame => {
                let frame = frame.replace("\"\"", "").replace("\\r", "\r");
                let at_line = |error: String| format!("line {}: {error}", place + 1);
                let answer = reader.answer(&frame, paper).map_err(at_line)?;
                let wrong = wrong.map(|wrong| differing(wrong, &answer)).transpose().map_err(at_line)?;
                lines.push(Answered { frame, answer, wrong });
            }
        }
    }
    match reader.domain {
        Domain::AtItsEdge => Err("no call stands behind the line 'outside'".into()),
        _ => Ok(lines),
    }
}

struct Reader {
    rust: Driver,
    domain: Domain,
}

enum Domain {
    Inside,
    /// The next call must be the first one outside.
    AtItsEdge,
    Left,
}

impl Reader {
    fn answer(&mut self, frame: &str, paper: Option<String>) -> Result<String, String> {
        if let Domain::Inside = self.domain {
            let outside = |_| "the call is outside the domain, and no line 'outside' says so";
            let rust = self.rust.answer_line(frame.as_bytes()).map_err(outside)?.line();
            return match paper {
                Some(paper) if paper != rust => Err(format!("the paper answers {paper}, the Rust {rust}")),
                _ => Ok(dotted(value_of(Call::read(frame.as_bytes()).as_ref()), &rust)),
            };
        }
        if let Domain::AtItsEdge = self.domain {
            self.domain = Domain::Left;
            if self.rust.answer_line(frame.as_bytes()).is_ok() {
                return Err("the call is inside the domain".into());
            }
        }
        paper.ok_or("outside the domain the paper's answer must be given".into())
    }
}

/// A wrong answer, if it is one. The right one must be known whole, since it is what will be found.
fn differing(wrong: String, answer: &str) -> Result<String, String> {
    if answer.contains(ANY) {
        return Err(format!("bytes of {answer} are left aside, so no wrong answer can be stored here"));
    }
    let is_same = |(wrong, right)| wrong == ANY || wrong == right;
    if wrong.len() == answer.len() && wrong.chars().zip(answer.chars()).all(is_same) {
        return Err(format!("{wrong} is to be wrong, but the answer is {answer}"));
    }
    Ok(wrong)
}

/// What stands before a mark, and the answer behind it.
fn split_off<'a>(line: &'a str, mark: &str) -> (&'a str, Option<String>) {
    line.split_once(mark).map_or((line, None), |(before, answer)| (before, Some(unspaced(answer))))
}

fn unspaced(text: &str) -> String {
    text.split_whitespace().collect()
}

#[cfg(test)]
mod tests {
    use super::*;

    #[test]
    fn the_papers_answer_must_be_the_rusts() {
        assert_eq!(answered("# new\n\n06 0000000000000000 => 00 ffff ff # none\n").unwrap().len(), 1);
        assert!(answered("06 0000000000000000 => 00 0000 00").unwrap_err().contains("the Rust 00ffffff"));
    }

    #[test]
    fn what_is_no_frame_can_be_written() {
        let lines = answered("\"\" => 09 ffff\n0f \\r => 09 ffff").unwrap();
        let lines: Vec<_> = lines.iter().map(|line| (line.frame.as_str(), line.answer.as_str())).collect();
        assert_eq!(lines, [("", "09ffff"), ("0f\r", "09ffff")]);
    }

    #[test]
    fn outside_is_where_the_domain_ends() {
        assert!(answered("outside\n0f => 00 ffff 0000000000000000").unwrap_err().contains("inside"));
    }

    #[test]
    fn a_call_must_stand_behind_outside() {
        for text in ["outside", "0f\noutside\n", "outside # the end\n\n# no call\n"] {
            assert!(answered(text).unwrap_err().contains("no call"), "{text:?}");
        }
    }

    #[test]
    fn outside_the_domain_the_answer_is_the_files() {
        let to_the_edge = "00 00000007 00 0000000000000001 0000000000000000 0000000000000000\n\
            05 0000000000000000\n06 0000000000000000\n07 0000000000000000 00000001\noutside\n";
        let lines = answered(&format!("{to_the_edge}07 0000000000000000 ffffffff => 00 0000 00 ..")).unwrap();
        assert_eq!(lines.last().unwrap().answer, "00000000..");
    }

    #[test]
    fn a_wrong_answer_stands_beside_the_right_one() {
        for text in ["06 0000000000000000 => 00 ffff ff =/=> 00 0000 00", "06 0000000000000000 =/=> 00 0000 00 # wrong"]
        {
            let lines = answered(text).unwrap();
            assert_eq!((lines[0].answer.as_str(), lines[0].wrong.as_deref()), ("00ffffff", Some("00000000")));
        }
        assert_eq!(answered("06 0000000000000000 => 00 ffff ff").unwrap()[0].wrong, None);
    }

    #[test]
    fn the_right_answer_is_checked_beside_a_wrong_one() {
        let wrong = answered("06 0000000000000000 => 00 0000 00 =/=> 00 ffff ff").unwrap_err();
        assert!(wrong.contains("the Rust 00ffffff"), "{wrong}");
    }

    #[test]
    fn a_wrong_answer_differs() {
        for wrong in ["00 ffff fe", "00 ffff", "00 ffff ff 00", "", ".. .... 00"] {
            assert!(answered(&format!("06 0000000000000000 =/=> {wrong}")).is_ok(), "{wrong:?}");
        }
        for same in ["00 ffff ff", "00 ffff ..", ".. .... .."] {
            let wrong = answered(&format!("06 0000000000000000 =/=> {same}")).unwrap_err();
            assert!(wrong.contains("line 1: ") && wrong.contains("is to be wrong"), "{wrong}");
        }
    }

    #[test]
    fn the_answer_beside_a_wrong_one_has_no_bytes_left_aside() {
        assert!(differing("00ffff".into(), "00ffff..").unwrap_err().contains("left aside"));
    }
}
