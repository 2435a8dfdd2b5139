//! That all of them answer alike. Nothing is timed before.

use crate::driver::Driver;
use crate::fields::{self, value_of};
use crate::frames::{digits_of, Call};
use crate::lists::List;
use crate::ours::Ours;
use crate::step::{Frame, Host, Step};
use crate::Wrong;

/// A list with all that is laid out before it is timed, and what `step` answered, which is what the Rust answers.
pub struct Checked {
    pub list: List,
    pub frames: Vec<Frame>,
    /// The images behind the set-up and behind the list.
    pub start: Vec<u8>,
    pub end: Vec<u8>,
    pub answers: Vec<Vec<u8>>,
}

impl Checked {
    /// Makes a list's calls on the Rust and through `step`, and compares every answer.
    pub fn of(list: List) -> Result<Checked, Wrong> {
        let mut both = Both { rust: Driver::new(), host: Host::new()?, list: &list.name };
        for call in &list.set_up {
            both.answer(call)?;
        }
        let start = both.host.image.clone();
        let answers = list.calls.iter().map(|call| both.answer(call)).collect::<Result<_, _>>()?;
        let end = both.host.image;
        let frames = list.calls.iter().map(Frame::of).collect();
        Ok(Checked { list, frames, start, end, answers })
    }

    /// Makes the calls on a state of ours, and compares every answer and the state at the end with those of `step`.
    pub fn compare(&self, name: &str, make: impl Fn(&mut Ours, usize)) -> Result<(), Wrong> {
        let mut ours = Ours::of(&self.start);
        self.compare_answers(name, |place| {
            make(&mut ours, place);
            ours.answer()
        })?;
        self.compare_end(name, ours.image() == self.end && ours.keeps_its_size())
    }

    /// Makes the calls through another step, and compares every answer and the image at the end.
    pub fn compare_step(&self, name: &str, step: Step) -> Result<(), Wrong> {
        let mut host = Host::on(self.start.clone(), step);
        self.compare_answers(name, |place| host.answered(&self.frames[place]).unwrap_or_default().to_vec())?;
        self.compare_end(name, host.image == self.end)
    }

    fn compare_answers(&self, name: &str, mut answer: impl FnMut(usize) -> Vec<u8>) -> Result<(), Wrong> {
        for (place, expected) in self.answers.iter().enumerate() {
            let found = answer(place);
            if found != *expected {
                let (expected, found) = (digits_of(expected), digits_of(&found));
                let both = format!("step answered {}, it {}", expected.escape_ascii(), found.escape_ascii());
                return Err(self.different(name, place, &both));
            }
        }
        Ok(())
    }

    fn compare_end(&self, name: &str, is_alike: bool) -> Result<(), Wrong> {
        match is_alike {
            true => Ok(()),
            false => Err(self.different(name, self.answers.len() - 1, "the state is then not that of step")),
        }
    }

    fn different(&self, name: &str, place: usize, what: &str) -> Wrong {
        let line = self.list.calls[place].line();
        Wrong::Different(format!("{}, call {}, {line}: {name}: {what}", self.list.name, place + 1))
    }

    /// How many calls were refused.
    pub fn refused(&self) -> usize {
        self.answers.iter().filter(|answer| answer[0] != 0).count()
    }
}

/// The Rust and `step`, side by side.
struct Both<'a> {
    rust: Driver,
    host: Host,
    list: &'a str,
}

impl Both<'_> {
    /// The answer of `step`, which must be the Rust's, field by field.
    fn answer(&mut self, call: &Call) -> Result<Vec<u8>, Wrong> {
        let told = |what: String| format!("{}, {}: {what}", self.list, call.line());
        let rust = self.rust.answer(call).map_err(|outside| Wrong::Failed(told(outside.to_string())))?.line();
        let answer = self.host.answered(&Frame::of(call)).unwrap_or_default();
        match fields::difference(value_of(Some(call)), rust.as_bytes(), &digits_of(answer)) {
            None => Ok(answer.to_vec()),
            Some(wrong) => {
                let both = format!("{}: the Rust answered {}, step {}", wrong.field, wrong.expected, wrong.found);
                Err(Wrong::Different(told(both)))
            }
        }
    }
}
