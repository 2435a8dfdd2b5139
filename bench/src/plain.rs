//! What the host entry does, in plain Rust: an image and a frame in, the image and an answer out. It is what one would
//! write first from document 01, without proofs: `step` is held against it, since the Rust works on no image.
//!
//!   state   records, queues, holders
//!   image   the state read from an image, if it is accepted, and written back
//!   frame   a frame read as a call
//!   rules   the calls
//!   answer  what a call gives, and its bytes
//!   bytes   numbers read from bytes and written to them

mod answer;
mod bytes;
mod frame;
mod image;
mod rules;
mod state;

use crate::step::ANSWER_BYTES;
use frame::Call;
use state::Scheduler;

/// What is added to the number of a refusal that has no answer.
const REFUSED: u64 = 256;

const WRONG_LENGTH: u64 = 7;
const NO_IMAGE: u64 = 8;
const NO_FRAME: u64 = 9;

/// It is not inlined, so that it is not made to fit the loop that times it: ours is behind a call too.
#[inline(never)]
pub fn step(image: &mut [u8], frame: &[u8], answer: &mut [u8]) -> u64 {
    if image.len() != crate::image::BYTES || answer.len() < ANSWER_BYTES {
        return REFUSED + WRONG_LENGTH;
    }
    let Some(mut scheduler) = Scheduler::read(image) else { return REFUSED + NO_IMAGE };
    let Some(call) = Call::read(frame) else { return REFUSED + NO_FRAME };
    let given = scheduler.make(call);
    scheduler.write(image);
    answer::write(&given, answer) as u64
}
