//! The frames that are passed: a call's first byte and its fields, as the library has them.

use tilesorrel::{
    put, AFFINITY, AFFINITY_BYTES, BLOCK_BYTES, CAN_RUN_ON_CORE, CAN_RUN_ON_CORE_BYTES, CREATE, CREATE_BYTES,
    CURRENT_TASK_ON_CPU_BYTES, ENQUEUE_BYTES, HANDOFF_BYTES, HOLDER_BYTES, PLAN_BYTES, SCHEDULE_BYTES,
    SYSTEM_MICROSECONDS_BYTES, TASK_BYTES, TASK_INDEX_FOR_TID, TASK_INDEX_FOR_TID_BYTES, TERMINATE_BYTES, TICK_BYTES,
    WAKE_BYTES, YIELD_BYTES,
};

/// The length that each call's frame must have, at the call's number.
const LENGTHS: [usize; 17] = [
    CREATE_BYTES,
    AFFINITY_BYTES,
    TERMINATE_BYTES,
    BLOCK_BYTES,
    WAKE_BYTES,
    ENQUEUE_BYTES,
    SCHEDULE_BYTES,
    TICK_BYTES,
    YIELD_BYTES,
    HANDOFF_BYTES,
    PLAN_BYTES,
    CAN_RUN_ON_CORE_BYTES,
    TASK_INDEX_FOR_TID_BYTES,
    TASK_BYTES,
    CURRENT_TASK_ON_CPU_BYTES,
    SYSTEM_MICROSECONDS_BYTES,
    HOLDER_BYTES,
];

/// What a create asks for: cr3 and rsp0 are made from the context.
pub struct Task {
    pub tid: u32,
    pub band: u8,
    pub context: u64,
}

impl Task {
    pub fn new(tid: u32, band: u8, context: u64) -> Task {
        Task { tid, band, context }
    }

    pub fn cr3(&self) -> u64 {
        self.context << 8 | 0xc3
    }

    pub fn rsp0(&self) -> u64 {
        self.context << 8 | 0xb0
    }
}

/// The bytes that are passed: a call and its fields, or what is no frame.
pub struct Frame {
    bytes: Vec<u8>,
}

impl Frame {
    pub fn of_nothing(call: u8) -> Frame {
        Frame { bytes: vec![call] }
    }

    pub fn of_slot(call: u8, slot: u64) -> Frame {
        Frame::of_nothing(call).with(8, slot)
    }

    pub fn of_core(call: u8, core: u64) -> Frame {
        Frame::of_nothing(call).with(8, core)
    }

    pub fn of_timer(call: u8, core: u64, elapsed: u32) -> Frame {
        Frame::of_core(call, core).with(4, elapsed.into())
    }

    pub fn of_slot_and_core(slot: u64, core: u64) -> Frame {
        Frame::of_slot(CAN_RUN_ON_CORE, slot).with(8, core)
    }

    pub fn of_tid(tid: u32) -> Frame {
        Frame::of_nothing(TASK_INDEX_FOR_TID).with(4, tid.into())
    }

    pub fn affinity(slot: u64, mask: u64) -> Frame {
        Frame::of_slot(AFFINITY, slot).with(8, mask)
    }

    pub fn create(task: &Task) -> Frame {
        let named = Frame::of_nothing(CREATE).with(4, task.tid.into()).with(1, task.band.into());
        named.with(8, task.context).with(8, task.cr3()).with(8, task.rsp0())
    }

    /// Any bytes, frame or not.
    pub fn of_bytes(digits: &str) -> Frame {
        Frame { bytes: bytes_of(digits) }
    }

    /// The frame with one more field.
    fn with(mut self, bytes: usize, number: u64) -> Frame {
        let at = self.bytes.len();
        self.bytes.resize(at + bytes, 0);
        put(&mut self.bytes[at..], number);
        self
    }

    pub fn bytes(&self) -> &[u8] {
        &self.bytes
    }

    /// The length that a frame of this call must have; 0 if there is no such call.
    pub fn call_bytes(&self) -> usize {
        let call = self.bytes.first().copied().map(usize::from);
        call.and_then(|call| LENGTHS.get(call)).copied().unwrap_or(0)
    }
}

/// The bytes that hexadecimal digits stand for, two a byte; blanks are for reading.
pub fn bytes_of(digits: &str) -> Vec<u8> {
    let digits = digits.chars().filter(|&digit| digit != ' ');
    let halves: Vec<u8> = digits.map(|digit| digit.to_digit(16).expect("a hexadecimal digit") as u8).collect();
    halves.chunks(2).map(|pair| pair[0] << 4 | pair[1]).collect()
}
