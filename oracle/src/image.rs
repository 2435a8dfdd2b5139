//! Document 01's image: the whole state in 3,275 bytes, made from the Rust's state, and two compared by field.

use crate::answers::{byte, record_digits};
use crate::driver::Driver;
use crate::fields::{record_fields, Difference};
use crate::frames::{bytes_of, digits_of};
use kscheduler::{TaskControlBlock, MAX_CPUS, MAX_TASKS};

const BANDS: usize = 3;

/// Each band's waiting slots, from front to tail.
pub type Queues = [Vec<usize>; BANDS];

/// A queue's length byte and its places.
const QUEUE_BYTES: usize = 1 + MAX_TASKS;

/// The empty record: band 2, state 3, mask all ones, all else 0.
const EMPTY_RECORD: &str = concat!(
    "00000000",         // tid
    "02",               // band
    "03",               // state
    "0000000000000000", // context
    "0000000000000000", // cr3
    "0000000000000000", // rsp0
    "ffffffffffffffff", // mask
    "00000000",         // budget
    "00000000",         // consumed
    "00",               // in use
);

/// The image of the new state, from the paper and not from the Rust: empty records, empty queues, no holders, 0.
pub fn of_new() -> Vec<u8> {
    let queues = "00".repeat(BANDS * QUEUE_BYTES);
    let holders = "ff".repeat(MAX_CPUS);
    image([EMPTY_RECORD.repeat(MAX_TASKS), queues, holders, "00".repeat(8)])
}

/// The Rust's whole state.
pub struct State {
    tasks: Vec<TaskControlBlock>,
    queues: Queues,
    /// The slot that each core holds.
    holders: Vec<Option<usize>>,
    micros: u64,
}

impl State {
    /// The state as it is now, with empty queues: no method of the Rust shows what stands in them.
    pub fn of(rust: &Driver) -> State {
        State {
            tasks: (0..MAX_TASKS).filter_map(|slot| rust.task(slot).copied()).collect(),
            queues: Queues::default(),
            holders: (0..MAX_CPUS).map(|core| rust.holder(core)).collect(),
            micros: rust.micros(),
        }
    }

    /// The same state with these queues.
    pub fn with_queues(self, queues: Queues) -> State {
        State { queues, ..self }
    }

    pub fn image(&self) -> Vec<u8> {
        let records = self.tasks.iter().map(record_digits).collect();
        let queues = self.queues.iter().map(|queue| queue_digits(queue)).collect();
        let holders = self.holders.iter().map(|&slot| byte(slot)).collect();
        image([records, queues, holders, format!("{:016x}", self.micros)])
    }
}

fn queue_digits(queue: &[usize]) -> String {
    let entries: String = queue.iter().map(|&slot| byte(Some(slot))).collect();
    format!("{:02x}{entries}{}", queue.len(), "00".repeat(MAX_TASKS - queue.len()))
}

/// The image whose parts have these digits: records, queues, holders, microseconds.
fn image(parts: [String; 4]) -> Vec<u8> {
    bytes_of(parts.concat().as_bytes()).expect("two digits a byte")
}

/// The first field in which an image is not the Rust's.
pub fn difference(expected: &[u8], found: &[u8]) -> Option<Difference> {
    if expected == found {
        return None;
    }
    let mut at = 0;
    fields().into_iter().find_map(|(name, width)| {
        let (rust_part, our_part) = (&expected[at..at + width], &found[at..at + width]);
        at += width;
        (rust_part != our_part).then(|| told(&name, rust_part, our_part))
    })
}

/// The names and widths of an image's fields. A queue is one field, so that its order is seen.
fn fields() -> Vec<(String, usize)> {
    let record = |slot| record_fields().map(move |(name, width)| (format!("{name} of slot {slot}"), width));
    let mut fields: Vec<(String, usize)> = (0..MAX_TASKS).flat_map(record).collect();
    fields.extend((0..BANDS).map(|band| (format!("queue of band {band}"), QUEUE_BYTES)));
    fields.extend((0..MAX_CPUS).map(|core| (format!("holder of core {core}"), 1)));
    fields.push(("micros".into(), 8));
    fields
}

fn told(name: &str, expected: &[u8], found: &[u8]) -> Difference {
    let text = |bytes: &[u8]| String::from_utf8_lossy(&digits_of(bytes)).into_owned();
    Difference { field: format!("image, {name}"), expected: text(expected), found: text(found) }
}

#[cfg(test)]
mod tests {
    use super::*;

    fn field_of(place: usize) -> String {
        let mut changed = of_new();
        changed[place] ^= 1;
        difference(&of_new(), &changed).expect("a byte was changed").field
    }

    #[test]
    fn the_rusts_new_state_has_the_papers_image() {
        let image = of_new();
        assert_eq!(image.len(), 3_275);
        assert_eq!(State::of(&Driver::new()).image(), image);
    }

    #[test]
    fn every_byte_is_in_a_field() {
        assert_eq!(fields().iter().map(|(_, width)| width).sum::<usize>(), of_new().len());
        assert_eq!(difference(&of_new(), &of_new()), None);
        assert_eq!(field_of(0), "image, tid of slot 0");
        assert_eq!(field_of(2 * 47 + 46), "image, in use of slot 2");
        assert_eq!(field_of(3_008 + 64), "image, queue of band 0");
        assert_eq!(field_of(3_203), "image, holder of core 0");
        assert_eq!(field_of(3_274), "image, micros");
    }

    #[test]
    fn a_queue_stands_from_front_to_tail() {
        let queues = [vec![5, 3], vec![], (0..MAX_TASKS).collect()];
        let image = State::of(&Driver::new()).with_queues(queues).image();
        assert_eq!(image[3_008..3_012], [2, 5, 3, 0]);
        assert_eq!(image[3_073..3_138], [0; 65]);
        assert_eq!((image[3_138], image[3_139], image[3_202]), (64, 0, 63));
    }
}
