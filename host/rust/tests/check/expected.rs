//! The image that document 01 expects after each call, which main.rs changes by hand.

use crate::frames::Task;
use tilesorrel::{
    put, BACKGROUND, BANDS, BAND_AT, BLOCKED, BUDGET_AT, CONSUMED_AT, CONTEXT_AT, CORES, CR3_AT, HOLDERS_AT,
    IMAGE_BYTES, IN_USE_AT, MASK_AT, MICROS_AT, NONE, QUEUES_AT, QUEUE_BYTES, RECORDS_AT, RECORD_BYTES, RSP0_AT,
    RUNNING, SLOTS, STATE_AT, TERMINATED, TID_AT,
};

/// How many bytes behind image, frame and answer buffer are looked at: nobody may write them.
pub const BEHIND: usize = 16;

/// What stands in the image before there is one, and behind image and frame.
pub const UNWRITTEN: u8 = 0xa5;

pub const ALL_CORES: u64 = u64::MAX;

/// The bands' slices, in microseconds.
const SLICES: [u64; BANDS as usize] = [2_000, 5_000, 20_000];

// ---- Where something stands in the image ----

pub fn record_at(slot: u8) -> usize {
    RECORDS_AT + usize::from(slot) * RECORD_BYTES
}

pub fn queue_at(band: u8) -> usize {
    QUEUES_AT + usize::from(band) * QUEUE_BYTES
}

pub fn holder_at(core: u8) -> usize {
    HOLDERS_AT + usize::from(core)
}

/// The image and the bytes behind it, as they should be.
pub struct Expected {
    bytes: [u8; IMAGE_BYTES + BEHIND],
}

impl Expected {
    /// Nothing is written yet.
    pub fn unwritten() -> Expected {
        Expected { bytes: [UNWRITTEN; IMAGE_BYTES + BEHIND] }
    }

    pub fn bytes(&self) -> &[u8] {
        &self.bytes
    }

    pub fn record(&self, slot: u8) -> &[u8] {
        &self.bytes[record_at(slot)..][..RECORD_BYTES]
    }

    pub fn put(&mut self, at: usize, bytes: usize, number: u64) {
        put(&mut self.bytes[at..at + bytes], number);
    }

    pub fn field(&mut self, slot: u8, at: usize, bytes: usize, number: u64) {
        self.put(record_at(slot) + at, bytes, number);
    }

    pub fn state(&mut self, slot: u8, state: u8) {
        self.field(slot, STATE_AT, 1, state.into());
    }

    /// A queue's entries from front to tail.
    pub fn queue(&mut self, band: u8, slots: &[u8]) {
        let bytes = &mut self.bytes[queue_at(band)..][..QUEUE_BYTES];
        bytes.fill(0);
        bytes[0] = slots.len() as u8;
        bytes[1..=slots.len()].copy_from_slice(slots);
    }

    pub fn holder(&mut self, core: u8, slot: u8) {
        self.bytes[holder_at(core)] = slot;
    }

    pub fn micros(&mut self, micros: u64) {
        self.put(MICROS_AT, 8, micros);
    }

    /// What rule P does to the record that it picks, and to the core.
    pub fn picked(&mut self, core: u8, slot: u8) {
        let band = self.record(slot)[BAND_AT];
        self.state(slot, RUNNING);
        self.field(slot, BUDGET_AT, 4, SLICES[usize::from(band)]);
        self.field(slot, CONSUMED_AT, 4, 0);
        self.holder(core, slot);
    }

    /// The record that a create makes.
    pub fn created(&mut self, slot: u8, task: &Task) {
        self.field(slot, TID_AT, 4, task.tid.into());
        self.field(slot, BAND_AT, 1, task.band.into());
        self.field(slot, STATE_AT, 1, BLOCKED.into());
        self.field(slot, CONTEXT_AT, 8, task.context);
        self.field(slot, CR3_AT, 8, task.cr3());
        self.field(slot, RSP0_AT, 8, task.rsp0());
        self.field(slot, MASK_AT, 8, ALL_CORES);
        self.field(slot, BUDGET_AT, 4, 0);
        self.field(slot, CONSUMED_AT, 4, 0);
        self.field(slot, IN_USE_AT, 1, 1);
    }

    /// Other fields stay.
    pub fn terminated(&mut self, slot: u8) {
        self.state(slot, TERMINATED);
        self.field(slot, IN_USE_AT, 1, 0);
    }

    /// New: all records empty, queues empty, no holders, 0.
    pub fn new_scheduler(&mut self) {
        self.bytes[..IMAGE_BYTES].fill(0);
        for slot in 0..SLOTS as u8 {
            self.field(slot, BAND_AT, 1, BACKGROUND.into());
            self.field(slot, STATE_AT, 1, TERMINATED.into());
            self.field(slot, MASK_AT, 8, ALL_CORES);
        }
        self.bytes[HOLDERS_AT..][..CORES].fill(NONE);
    }
}
