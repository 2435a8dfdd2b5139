//! The host entry of the archive, called as a host kernel calls it: an image that the host keeps, a frame's bytes, a
//! buffer for the answer. Frames are laid out before they are timed.

use crate::frames::{bytes_of, Call};
use crate::image;
use crate::Wrong;
use std::hint::black_box;
use std::time::{Duration, Instant};

extern "C" {
    fn new_image(image: *mut u8, image_len: usize) -> u64;
    fn step(
        image: *mut u8,
        image_len: usize,
        frame: *const u8,
        frame_len: usize,
        answer: *mut u8,
        answer_len: usize,
    ) -> u64;
}

/// The longest frame and the longest answer.
const FRAME_BYTES: usize = 30;
pub const ANSWER_BYTES: usize = 51;

pub struct Frame {
    bytes: [u8; FRAME_BYTES],
    length: usize,
}

impl Frame {
    pub fn of(call: &Call) -> Frame {
        let digits = bytes_of(call.line().as_bytes()).expect("two digits a byte");
        let mut bytes = [0; FRAME_BYTES];
        bytes[..digits.len()].copy_from_slice(&digits);
        Frame { bytes, length: digits.len() }
    }

    pub fn bytes(&self) -> &[u8] {
        &self.bytes[..self.length]
    }
}

/// A step: image, frame and buffer in, image and answer out. It gives the answer's length, or 256 and the refusal.
pub type Step = fn(image: &mut [u8], frame: &[u8], answer: &mut [u8]) -> u64;

/// The archive's.
pub fn archived(image: &mut [u8], frame: &[u8], answer: &mut [u8]) -> u64 {
    // SAFETY: every pointer has its length of bytes behind it, which nobody else uses meanwhile.
    unsafe { step(image.as_mut_ptr(), image.len(), frame.as_ptr(), frame.len(), answer.as_mut_ptr(), answer.len()) }
}

/// A host that keeps an image and asks a step.
pub struct Host {
    pub image: Vec<u8>,
    answer: [u8; ANSWER_BYTES],
    step: Step,
}

impl Host {
    /// A host of the archive, on a new image.
    pub fn new() -> Result<Host, Wrong> {
        let mut host = Host::on(vec![0; image::BYTES], archived);
        // SAFETY: the pointer has its length of bytes behind it.
        match unsafe { new_image(host.image.as_mut_ptr(), host.image.len()) } {
            0 => Ok(host),
            returned => Err(Wrong::Failed(format!("new_image returned {returned} for {} bytes", image::BYTES))),
        }
    }

    pub fn on(image: Vec<u8>, step: Step) -> Host {
        Host { image, answer: [0; ANSWER_BYTES], step }
    }

    /// Does a frame, and gives the answer; none where image, buffer or frame were refused.
    pub fn answered(&mut self, frame: &Frame) -> Option<&[u8]> {
        let length = self.step(frame);
        self.answer.get(..length as usize)
    }

    /// Times the frames on the image. It must end as that one.
    pub fn timed(mut self, frames: &[Frame], end: &[u8]) -> Result<Duration, Wrong> {
        let begin = Instant::now();
        for frame in frames {
            black_box(self.step(frame));
        }
        let time = begin.elapsed();
        match self.image == end {
            true => Ok(time),
            false => Err(Wrong::Different("the image behind a timed list is another than before".into())),
        }
    }

    fn step(&mut self, frame: &Frame) -> u64 {
        (self.step)(&mut self.image, frame.bytes(), &mut self.answer)
    }
}
