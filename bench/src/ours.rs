//! Our functions by value and lent, called as a program in Rattle calls them. Calls are read off frames before they are
//! timed.

use crate::module::{self, Room, ANSWER, CALL, CALL_OPTION, REPLY, SPARE, STATE, WORD};
use crate::step::{Frame, ANSWER_BYTES};
use crate::{image, Wrong};
use std::hint::black_box;
use std::time::{Duration, Instant};

/// Calls as our functions take them.
pub struct Calls {
    words: Vec<u64>,
}

impl Calls {
    pub fn of(frames: &[Frame]) -> Calls {
        let mut words = vec![0; (frames.len() * CALL_OPTION + SPARE) / WORD];
        for (frame, place) in frames.iter().zip(words.chunks_mut(CALL_OPTION / WORD)) {
            let bytes = frame.bytes();
            // SAFETY: the place has the size of what is given.
            unsafe { module::read_frame(place.as_mut_ptr().cast(), bytes.as_ptr(), bytes.len()) };
        }
        Calls { words }
    }

    fn at(&self, place: usize) -> *const u8 {
        let words = &self.words[place * CALL_OPTION / WORD..][..CALL_OPTION / WORD];
        // SAFETY: the call stands at the end of the option.
        unsafe { words.as_ptr().cast::<u8>().add(CALL_OPTION - CALL) }
    }
}

pub struct Tick {
    pub core: u64,
    pub elapsed: u32,
}

/// A scheduler as Rattle has it, and what its last call gave.
pub struct Ours {
    state: Room,
    /// A reply: the answer, and the state behind it. The answer alone where the state is lent.
    reply: Room,
}

impl Ours {
    /// The scheduler that an image stands for.
    pub fn of(image: &[u8]) -> Ours {
        let mut ours = Ours { state: Room::for_bytes(STATE), reply: Room::for_bytes(REPLY) };
        // SAFETY: there is room for what is given, and the image is accepted.
        unsafe { module::state_at(ours.state.address(), image.as_ptr()) };
        ours
    }

    pub fn apply(&mut self, calls: &Calls, place: usize) {
        // SAFETY: there is room for what is given.
        unsafe { module::apply(self.reply.address(), self.state.address(), calls.at(place)) };
        self.take_state();
    }

    pub fn tick(&mut self, tick: &Tick) {
        let (reply, state) = (self.reply.address(), self.state.address());
        // SAFETY: there is room for what is given.
        unsafe { module::on_timer_tick_on_cpu(reply, state, tick.core, tick.elapsed) };
        self.take_state();
    }

    pub fn tick_lent(&mut self, tick: &Tick) {
        let (answer, state) = (self.reply.address(), self.state.address());
        // SAFETY: there is room for what is given.
        unsafe { module::on_timer_tick_on_cpu_lent(answer, state, tick.core, tick.elapsed) };
    }

    /// Who calls by value goes on with the state of the reply. This copy is part of calling so, and is timed.
    fn take_state(&mut self) {
        // SAFETY: the state stands behind the answer, and has its own room.
        unsafe { self.state.address().copy_from_nonoverlapping(self.reply.address().add(ANSWER), STATE) };
    }

    /// The bytes of the last answer.
    pub fn answer(&mut self) -> Vec<u8> {
        let mut buffer = vec![0; ANSWER_BYTES];
        // SAFETY: the answer stands at the front of the reply, and the buffer has room for the longest.
        let length = unsafe { module::write_answer(self.reply.address(), buffer.as_mut_ptr(), buffer.len()) };
        buffer.truncate(length as usize);
        buffer
    }

    pub fn image(&mut self) -> Vec<u8> {
        let mut image = vec![0; image::BYTES];
        // SAFETY: there is room for the whole image.
        unsafe { module::write_image(self.state.address(), image.as_mut_ptr(), image.len()) };
        image
    }

    /// Whether state and reply have kept to their sizes.
    pub fn keeps_its_size(&self) -> bool {
        self.state.extent() <= STATE && self.reply.extent() <= REPLY
    }

    /// Times a list's calls. The state must end as that image.
    pub fn timed(mut self, calls: usize, end: &[u8], make: impl Fn(&mut Ours, usize)) -> Result<Duration, Wrong> {
        let begin = Instant::now();
        for place in 0..calls {
            make(&mut self, place);
            black_box(self.reply.address());
        }
        let time = begin.elapsed();
        match self.image() == end {
            true => Ok(time),
            false => Err(Wrong::Different("the state behind a timed list is not that of step".into())),
        }
    }
}
