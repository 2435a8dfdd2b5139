//! The functions that bench/module made visible to the linker, and memory for the values that they take and give.
//!
//! Rattle passes a value that is too large for a register by its address, and gives one at an address that is passed
//! first. A slice is passed as its address and its length.

mod layout {
    include!(env!("BENCH_LAYOUT"));
}
pub use layout::{ANSWER, CALL, CALL_OPTION, REPLY, STATE};

pub const WORD: usize = size_of::<u64>();

// What a reply and a list of calls are laid out by; `sizes` looks whether each size is right.
const _: () = assert!(ANSWER + STATE == REPLY && CALL_OPTION % WORD == 0);

extern "C" {
    #[link_name = "scheduler::scheduler::QoSScheduler::apply"]
    pub fn apply(reply: *mut u8, state: *mut u8, call: *const u8);
    #[link_name = "scheduler::scheduler::QoSScheduler::on_timer_tick_on_cpu"]
    pub fn on_timer_tick_on_cpu(reply: *mut u8, state: *mut u8, core: u64, elapsed: u32);
    #[link_name = "scheduler::scheduler::QoSScheduler::on_timer_tick_on_cpu_lent"]
    pub fn on_timer_tick_on_cpu_lent(answer: *mut u8, state: *mut u8, core: u64, elapsed: u32);
    #[link_name = "frames::decode::read_frame"]
    pub fn read_frame(call: *mut u8, frame: *const u8, frame_len: usize);
    #[link_name = "frames::read::state_at"]
    pub fn state_at(state: *mut u8, image: *const u8); // of an image that is accepted
    #[link_name = "frames::image::write_image"]
    pub fn write_image(state: *mut u8, image: *mut u8, image_len: usize); // its result is in registers, and not looked at
    #[link_name = "frames::encode::write_answer"]
    pub fn write_answer(answer: *mut u8, buffer: *mut u8, buffer_len: usize) -> u64;
}

/// Memory for a value, filled with marks. There is more of it than the value needs, so that a value which is larger
/// than was thought writes over marks and not over something else.
pub struct Room(Vec<u64>);

const MARK: u64 = 0x5aa5_5aa5_5aa5_5aa5;
pub const SPARE: usize = 8192;

impl Room {
    pub fn for_bytes(bytes: usize) -> Room {
        Room(vec![MARK; (bytes + SPARE) / WORD])
    }

    pub fn address(&mut self) -> *mut u8 {
        self.0.as_mut_ptr().cast()
    }

    /// How many bytes have been written, up to the last word that is no mark any more.
    pub fn extent(&self) -> usize {
        self.0.iter().rposition(|&word| word != MARK).map_or(0, |last| (last + 1) * WORD)
    }

    /// The bytes from a place on.
    pub fn from(&self, place: usize) -> Vec<u8> {
        self.0.iter().flat_map(|word| word.to_ne_bytes()).skip(place).collect()
    }
}
