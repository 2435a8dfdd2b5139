//! The host entry `step` of the crate tilesorrel, called as a host kernel calls it: through the C ABI, with an image that it
//! keeps from call to call, a frame's bytes and an answer buffer. What it does is held against the Rust's answers.

use crate::answers::NO_FRAME;
use crate::draw::{Line, List};
use crate::fields::{self, value_of, Difference};
use crate::frames::{bytes_of, digits_of, PLAN};
use crate::image;

/// Whether `step` is here: `oracle/build` links it where it is given an archive.
pub const IS_LINKED: bool = cfg!(host);

#[cfg(host)]
extern "C" {
    /// A Rattle slice is a pointer and a length.
    fn step(
        image: *mut u8,
        image_len: usize,
        frame: *const u8,
        frame_len: usize,
        answer: *mut u8,
        answer_len: usize,
    ) -> u64;
}

#[cfg(not(host))]
unsafe fn step(_: *mut u8, _: usize, _: *const u8, _: usize, _: *mut u8, _: usize) -> u64 {
    unreachable!("nothing is compared without an archive")
}

/// What is added to the number of a refusal that has no answer.
const REFUSED: u64 = 256;

/// The lengths of the answer buffer, which take turns: the shortest that is allowed, and some bytes more.
const ROOMS: [usize; 2] = [51, 55];

/// The bytes looked at behind every answer: those of the buffer, and some behind the longest buffer.
const MARKED: usize = 60;

/// What the buffer is filled with, in turns: a byte written where none should be may happen to be the one, not both.
const MARKS: [u8; 2] = [0x5a, 0xa5];

/// What came of a list's calls through `step`.
#[derive(Default)]
pub struct Stepped {
    /// How many there were. A line with a bad digit or an odd one has no bytes, and is no call here.
    pub calls: u64,
    /// What is not as it should be, behind the place of its line.
    pub differences: Vec<(usize, Difference)>,
}

/// Makes a list's calls from new, and compares each with the Rust's answer and with what `calls` wrote.
pub fn compare(list: &List, written: &[u8]) -> Stepped {
    let mut stepped = Stepped::default();
    let mut host = Host { image: image::of_new(), made: 0 };
    let mut answers = written.split(|&byte| byte == b'\n');
    for (place, line) in list.lines.iter().enumerate() {
        let by_calls = answers.next().unwrap_or_default();
        if let Some(frame) = bytes_of(&line.text) {
            stepped.calls += 1;
            let wrong = host.compare(line, &frame, by_calls);
            stepped.differences.extend(wrong.map(|difference| (place, difference)));
        }
        let seen = list.images.iter().find(|(lines, _)| *lines == place + 1);
        let wrong = seen.and_then(|(_, expected)| image::difference(expected, &host.image));
        stepped.differences.extend(wrong.map(|difference| (place, difference)));
    }
    stepped
}

struct Host {
    image: Vec<u8>,
    /// How many calls were made.
    made: usize,
}

/// What one call of `step` did.
struct Done {
    /// The answer's length, or 256 and the refusal.
    result: u64,
    /// The buffer and the bytes behind it, before and after.
    marked: [u8; MARKED],
    buffer: [u8; MARKED],
    /// The buffer's length.
    room: usize,
    /// The image before.
    before: Vec<u8>,
}

impl Host {
    /// Does a line's frame, and says what is first seen to be wrong.
    fn compare(&mut self, line: &Line, frame: &[u8], by_calls: &[u8]) -> Option<Difference> {
        let done = self.step(frame);
        if line.answer.status == NO_FRAME {
            return done.wrong_refusal().or_else(|| image::difference(&done.before, &self.image));
        }
        // A refused call and a query leave the image as it was.
        let stays = line.answer.status != 0 || line.call.as_ref().is_some_and(|call| call.number > PLAN);
        let wrong_image = || stays.then(|| image::difference(&done.before, &self.image)).flatten();
        done.wrong_answer(line, by_calls).or_else(|| done.wrong_behind(done.result as usize)).or_else(wrong_image)
    }

    fn step(&mut self, frame: &[u8]) -> Done {
        let turn = self.made % 2;
        self.made += 1;
        let before = self.image.clone();
        let marked = [MARKS[turn]; MARKED];
        let (mut buffer, room) = (marked, ROOMS[turn]);
        let (image, answer) = (&mut self.image, &mut buffer[..room]);
        // SAFETY: every pointer has its length of bytes behind it, which nobody else uses meanwhile.
        let result = unsafe {
            step(image.as_mut_ptr(), image.len(), frame.as_ptr(), frame.len(), answer.as_mut_ptr(), answer.len())
        };
        Done { result, marked, buffer, room, before }
    }
}

impl Done {
    /// What is wrong with the refusal of a frame: its number comes back, and the buffer keeps its marks.
    fn wrong_refusal(&self) -> Option<Difference> {
        let expected = REFUSED + u64::from(NO_FRAME);
        let wrong_result = (self.result != expected).then(|| told("result", &expected, &self.result));
        wrong_result.or_else(|| self.wrong_behind(0))
    }

    /// What is wrong with an answer. Bytes that the Rust has no part in must be those that `calls` answered.
    fn wrong_answer(&self, line: &Line, by_calls: &[u8]) -> Option<Difference> {
        let rust = line.answer.line();
        if self.result > self.room as u64 {
            return Some(told("result", &(rust.len() / 2), &self.result));
        }
        let ours = digits_of(&self.buffer[..self.result as usize]);
        let differs = |ours: &[u8]| fields::difference(value_of(line.call.as_ref()), rust.as_bytes(), ours);
        let from_calls = || {
            let is_another = ours != by_calls && differs(by_calls).is_none();
            is_another.then(|| told("as calls answers", &by_calls.escape_ascii(), &ours.escape_ascii()))
        };
        differs(&ours).or_else(from_calls)
    }

    /// What is wrong with the bytes behind an answer of that length: they keep their marks.
    fn wrong_behind(&self, length: usize) -> Option<Difference> {
        let (marked, found) = (&self.marked[length..], &self.buffer[length..]);
        let text = |bytes: &[u8]| digits_of(bytes).escape_ascii().to_string();
        (marked != found).then(|| told("bytes behind the answer", &text(marked), &text(found)))
    }
}

fn told(field: &str, expected: &dyn ToString, found: &dyn ToString) -> Difference {
    Difference { field: field.into(), expected: expected.to_string(), found: found.to_string() }
}

#[cfg(test)]
mod tests {
    use super::*;
    use crate::answers::{Answer, Value};
    use crate::frames::{Call, HOLDER};

    const MARK: u8 = MARKS[0];

    /// A call that left these bytes at the front of its buffer.
    fn done(result: u64, answer: &[u8]) -> Done {
        let marked = [MARK; MARKED];
        let mut buffer = marked;
        buffer[..answer.len()].copy_from_slice(answer);
        Done { result, marked, buffer, room: ROOMS[0], before: Vec::new() }
    }

    fn field(wrong: Option<Difference>) -> Option<String> {
        wrong.map(|difference| difference.field)
    }

    /// What is wrong with the answer to the query for slot 0's holder, which is core 5.
    fn wrong_answer(done: &Done, by_calls: &[u8]) -> Option<String> {
        let call = Call::new(HOLDER, &[0]);
        let answer = Answer::done(None, Value::Place(Some(5)));
        let line = Line { text: call.line().into_bytes(), call: Some(call), answer };
        field(done.wrong_answer(&line, by_calls))
    }

    #[test]
    fn an_answer_is_compared_with_the_rusts() {
        let right = [0, 0xff, 0xff, 5];
        assert_eq!(wrong_answer(&done(4, &right), b"00ffff05"), None);
        assert_eq!(wrong_answer(&done(4, &[0, 0xff, 0xff, 6]), b"00ffff05").as_deref(), Some("core"));
        assert_eq!(wrong_answer(&done(3, &right), b"00ffff05").as_deref(), Some("core"));
        assert_eq!(wrong_answer(&done(5, &right), b"00ffff05").as_deref(), Some("the answer's end"));
        assert_eq!(wrong_answer(&done(265, &[]), b"00ffff05").as_deref(), Some("result"));
        assert_eq!(wrong_answer(&done(52, &right), b"00ffff05").as_deref(), Some("result"));
    }

    #[test]
    fn a_wrong_line_of_calls_is_not_held_against_step() {
        assert_eq!(wrong_answer(&done(4, &[0, 0xff, 0xff, 5]), b"00ffff06"), None);
        assert_eq!(wrong_answer(&done(4, &[0, 0xff, 0xff, 5]), b""), None);
    }

    #[test]
    fn a_refused_frame_touches_nothing() {
        assert_eq!(field(done(265, &[]).wrong_refusal()), None);
        assert_eq!(field(done(264, &[]).wrong_refusal()).as_deref(), Some("result"));
        assert_eq!(field(done(3, &[9, 0xff, 0xff]).wrong_refusal()).as_deref(), Some("result"));
        assert_eq!(field(done(265, &[9]).wrong_refusal()).as_deref(), Some("bytes behind the answer"));
    }

    #[test]
    fn bytes_behind_an_answer_keep_their_marks() {
        assert_eq!(field(done(3, &[0, 0xff, 0xff]).wrong_behind(3)), None);
        assert_eq!(field(done(3, &[0, 0xff, 0xff, 0]).wrong_behind(3)).as_deref(), Some("bytes behind the answer"));
        let mut past_the_buffer = done(3, &[]);
        past_the_buffer.buffer[ROOMS[0]] = 0;
        assert_eq!(field(past_the_buffer.wrong_behind(3)).as_deref(), Some("bytes behind the answer"));
    }
}
