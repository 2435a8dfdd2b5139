//! A call that is passed to `step`, and all that can be seen of it compared with what is expected, byte by byte.

use crate::expected::{Expected, BEHIND, UNWRITTEN};
use crate::frames::{bytes_of, Frame};
use std::fmt::Debug;
use std::hint::black_box;
use std::process::ExitCode;
use tilesorrel::{
    get, new_image, put, step, Refusal, ANSWER_BYTES, CR3_AT, DONE, IMAGE_BYTES, NONE, PICK_BAND_AT, PICK_SLOT_AT,
    PLAN_CR3_AT, PLAN_PREVIOUS_AT, PLAN_SWITCH, PLAN_TARGET_AT, STATUS_AT, VALUE_AT,
};

/// What the answer buffer is filled with, in turns: a byte written where none should be may be the mark by chance.
const MARKS: [u8; 2] = [0xa5, 0x5a];

/// How much longer the buffer is than it has to be, in turns of two calls: with either mark.
const MORE: [usize; 2] = [0, ANSWER_BYTES];

/// How many checks there were, and how many failed.
#[derive(Default)]
struct Checks {
    made: u32,
    failed: u32,
}

impl Checks {
    fn value<T: PartialEq + Debug>(&mut self, what: &str, of: &str, is: T, should: T) {
        self.made += 1;
        if is != should {
            self.failed += 1;
            eprintln!("{what}: {of} is {is:?}, and should be {should:?}");
        }
    }

    /// Both have the same number of bytes.
    fn bytes(&mut self, what: &str, of: &str, are: &[u8], should: &[u8]) {
        self.made += 1;
        let wrong = are.iter().zip(should).enumerate().find(|(_, (is, should))| is != should);
        if let Some((place, (is, should))) = wrong {
            self.failed += 1;
            eprintln!("{what}: byte {place} of {of} is {is:02x}, and should be {should:02x}");
        }
    }
}

/// A host with its image, and what is expected of it.
pub struct Host {
    /// The image, and bytes behind it.
    image: [u8; IMAGE_BYTES + BEHIND],
    pub expected: Expected,
    /// How many frames were passed: the buffer goes by turns.
    passed: usize,
    checks: Checks,
}

impl Host {
    /// The image is not written yet.
    pub fn new() -> Host {
        let image = [UNWRITTEN; IMAGE_BYTES + BEHIND];
        Host { image, expected: Expected::unwritten(), passed: 0, checks: Checks::default() }
    }

    /// A number that is known without a call.
    pub fn check_number(&mut self, what: &str, of: &str, is: usize, should: usize) {
        self.checks.value(what, of, is, should);
    }

    /// A new image is asked for in that many bytes.
    pub fn made_new(&mut self, what: &str, image_len: usize, result: Result<(), Refusal>) {
        let returned = new_image(&mut self.image[..image_len]);
        self.checks.value(what, "what is returned", returned, result);
        self.checks.bytes(what, "the image", &self.image, self.expected.bytes());
    }

    /// Passes the frame, with image and buffer of these lengths, and checks what is returned, the buffer with the bytes
    /// behind it, the image with the bytes behind it, and that the frame is as it was. The result is the answer, or why
    /// there is none.
    fn check_step(&mut self, what: &str, frame: &Frame, lengths: (usize, usize), result: Result<&[u8], Refusal>) {
        let (image_len, answer_len) = lengths;
        let mut answer = [MARKS[self.passed % 2]; 2 * ANSWER_BYTES + BEHIND];
        self.passed += 1;
        let mut should = answer;
        let told = result.unwrap_or_default();
        should[..told.len()].copy_from_slice(told);
        let asked = [frame.bytes(), &[UNWRITTEN; BEHIND]].concat();
        let lent = asked.clone();
        let returned = step(&mut self.image[..image_len], &lent[..frame.bytes().len()], &mut answer[..answer_len]);
        self.checks.value(what, "what is returned", returned, result.map(<[u8]>::len));
        self.checks.bytes(what, "the answer buffer", &answer, &should);
        self.checks.bytes(what, "the image", &self.image, self.expected.bytes());
        // Rust takes it that what is lent to be read stays as it is. The library has a pointer, so look again.
        self.checks.bytes(what, "the frame", black_box(&lent), &asked);
    }

    /// The call is made, in a buffer that just suffices and in a longer one by turns.
    fn check_answer(&mut self, what: &str, frame: &Frame, told: &[u8]) {
        self.checks.value(what, "the frame's length", frame.bytes().len(), frame.call_bytes());
        self.check_step(what, frame, (IMAGE_BYTES, ANSWER_BYTES + MORE[self.passed / 2 % 2]), Ok(told));
    }

    /// The call is answered with these bytes.
    pub fn answered(&mut self, what: &str, frame: &Frame, digits: &str) {
        self.check_answer(what, frame, &bytes_of(digits));
    }

    /// The call is answered with a slot's record.
    pub fn answered_record(&mut self, what: &str, frame: &Frame, slot: u8) {
        let told = [&bytes_of("00ffff 01"), self.expected.record(slot)].concat();
        self.check_answer(what, frame, &told);
    }

    /// The call is answered with a pick, and a plan to switch to it.
    pub fn answered_switch(&mut self, what: &str, frame: &Frame, band: u8, previous: u8, target: u8) {
        let mut told = [0; VALUE_AT + PLAN_CR3_AT + 8];
        told[STATUS_AT] = DONE;
        told[PICK_SLOT_AT] = target;
        told[PICK_BAND_AT] = band;
        told[VALUE_AT] = PLAN_SWITCH;
        told[VALUE_AT + PLAN_PREVIOUS_AT] = previous;
        told[VALUE_AT + PLAN_TARGET_AT] = target;
        told[VALUE_AT + PLAN_CR3_AT..].copy_from_slice(&self.expected.record(target)[CR3_AT..][..8]);
        self.check_answer(what, frame, &told);
    }

    /// The call is refused with 1 to 6: an answer of the number and no pick.
    pub fn refused(&mut self, what: &str, frame: &Frame, number: u8) {
        let mut told = [0; VALUE_AT];
        told[STATUS_AT] = number;
        told[PICK_SLOT_AT] = NONE;
        told[PICK_BAND_AT] = NONE;
        self.check_answer(what, frame, &told);
    }

    /// No call is made: 8 or 9.
    pub fn not_called(&mut self, what: &str, frame: &Frame, refusal: Refusal) {
        self.check_step(what, frame, (IMAGE_BYTES, ANSWER_BYTES), Err(refusal));
    }

    /// No call is made, with image and buffer of these lengths: 7.
    pub fn wrong_length(&mut self, what: &str, frame: &Frame, image_len: usize, answer_len: usize) {
        self.check_step(what, frame, (image_len, answer_len), Err(Refusal::WrongLength));
    }

    /// The image is not accepted with this number there, and stays as it is; then it is mended.
    pub fn damaged(&mut self, what: &str, frame: &Frame, at: usize, bytes: usize, number: u64) {
        let before = get(&self.image[at..at + bytes]);
        self.put_both(at, bytes, number);
        self.not_called(what, frame, Refusal::NotAccepted);
        self.put_both(at, bytes, before);
    }

    /// The same bytes in the image and in what is expected of it.
    pub fn put_both(&mut self, at: usize, bytes: usize, number: u64) {
        put(&mut self.image[at..at + bytes], number);
        self.expected.put(at, bytes, number);
    }

    pub fn all_checked(&self) -> ExitCode {
        println!("{} checks, {} failed", self.checks.made, self.checks.failed);
        if self.checks.failed == 0 {
            ExitCode::SUCCESS
        } else {
            ExitCode::FAILURE
        }
    }
}
