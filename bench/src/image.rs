//! Where things stand in an image, as docs/host.md has it.

pub const BYTES: usize = 3_275;

const RECORD_BYTES: usize = 47;
const QUEUES_AT: usize = 3_008;
const QUEUE_BYTES: usize = 65;
const HOLDERS_AT: usize = 3_203;
const MICROS_AT: usize = 3_267;
const NONE: u8 = 0xff;

pub fn record(image: &[u8], slot: usize) -> &[u8] {
    &image[slot * RECORD_BYTES..][..RECORD_BYTES]
}

/// The slot that a core holds.
pub fn holder(image: &[u8], core: usize) -> Option<usize> {
    let slot = image[HOLDERS_AT + core];
    (slot != NONE).then_some(usize::from(slot))
}

pub fn micros(image: &[u8]) -> &[u8] {
    &image[MICROS_AT..]
}

/// How many wait in each band.
pub fn waiting(image: &[u8]) -> [u8; 3] {
    [0, 1, 2].map(|band| image[QUEUES_AT + band * QUEUE_BYTES])
}
