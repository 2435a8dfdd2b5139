//! Tilesorrel, the task scheduler of a lace machine's controller: what a kernel in Rust calls. It takes `core` alone.
//! A kernel that is built with cargo depends on this package; any other has this file as a module, or builds it by rustc.
//!
//! The host keeps the scheduler's state as an image of 3,275 bytes, and passes it with every call:
//!
//! ```ignore
//! let mut image = [0; IMAGE_BYTES];
//! new_image(&mut image)?;                                  // once
//!
//! let mut frame = [0; TICK_BYTES];                         // core 3's timer: 500 microseconds have passed
//! let mut answer = [0; ANSWER_BYTES];
//! frame[0] = TICK;
//! put(&mut frame[1..9], 3);
//! put(&mut frame[9..13], 500);
//! step(&mut image, &frame, &mut answer)?;
//! match answer[VALUE_AT] {
//!     NONE => idle(),                                      // nobody is to run on core 3
//!     slot => run(slot),                                   // the slot that core 3 is to run
//! }
//! ```
//!
//! Calls on one image must come one after another, as `&mut` demands: keep it in a lock, and take the lock for each. A
//! call uses the SSE2 registers, may use the red zone, and uses up to `STACK_BYTES` of stack. `tools/make archive` proves
//! the library and makes target/staticlib/libtilesorrel.a, which needs nothing but memcpy and memset; rustc finds it by
//! `-L native=target/staticlib`, and cargo by build.rs. docs/host.md says how to build and link it, what to call when and
//! what to do about a refusal, and has the image; docs/frames.md has every frame and answer with an example.
//!
//! Numbers of more than one byte are big-endian, in frames, answers and image. The names and numbers are those of
//! include/tilesorrel.h, without its prefix.

#![no_std]
// As a kernel's module: it need not make every call, nor read every field, and `no_std` is said by its root.
#![allow(dead_code, unused_attributes)]

// ---- Functions ----

// The 2024 edition asks for `unsafe` before `extern`; in 2021 it may stand there from rustc 1.82 on.
#[link(name = "tilesorrel", kind = "static")]
unsafe extern "C" {
    #[link_name = "new_image"]
    fn library_new_image(image: *mut u8, image_len: usize) -> u64;

    #[link_name = "step"]
    fn library_step(
        image: *mut u8,
        image_len: usize,
        frame: *const u8,
        frame_len: usize,
        answer: *mut u8,
        answer_len: usize,
    ) -> u64;
}

/// Why no call was made. Image and answer buffer are then as they were; with `Other` nothing is known of them.
#[derive(Debug, Clone, Copy, PartialEq, Eq)]
pub enum Refusal {
    /// 7: the image does not have 3,275 bytes, or the answer buffer has under 51.
    WrongLength,
    /// 8: the bytes are no image: not `new_image`'s, or somebody else wrote there. Go back to one you kept.
    NotAccepted,
    /// 9: the frame's first byte, length or band is wrong. Mend the caller.
    NoFrame,
    /// Any other number, as it was returned. The library is proved never to return one, so something else was linked or
    /// the machine is broken: it is told as it is, and not taken for one of the three, which would promise too much.
    Other(u64),
}

impl Refusal {
    /// The refusal's number: 7, 8 or 9. `Other`, which is told from these by matching, gives the number returned.
    pub fn number(self) -> u64 {
        match self {
            Refusal::WrongLength => WRONG_LENGTH,
            Refusal::NotAccepted => NOT_ACCEPTED,
            Refusal::NoFrame => NO_FRAME,
            Refusal::Other(returned) => returned,
        }
    }

    /// The refusal that was returned as this number. It goes by `number`, so that the two cannot disagree.
    fn of(returned: u64) -> Refusal {
        let named = [Refusal::WrongLength, Refusal::NotAccepted, Refusal::NoFrame];
        let found = named.iter().copied().find(|refusal| REFUSED + refusal.number() == returned);
        found.unwrap_or(Refusal::Other(returned))
    }
}

/// Writes the image of a new scheduler: no tasks, no core that holds one, no time passed.
///
/// Every byte of the image is written; or it is refused with `WrongLength` if it does not have `IMAGE_BYTES`, and no
/// byte is.
pub fn new_image(image: &mut [u8]) -> Result<(), Refusal> {
    // SAFETY: the pointer is good for the slice's length, and `&mut` keeps all others off it until the call returns.
    let returned = unsafe { library_new_image(image.as_mut_ptr(), image.len()) };
    match returned {
        0 => Ok(()),
        _ => Err(Refusal::of(returned)),
    }
}

/// Does a frame's call on the image, and puts its answer at the front of the buffer.
///
/// Comes back with the answer's length, 3 to `ANSWER_BYTES`. The image holds the state after the call, and bytes of the
/// buffer past the answer keep what they held. A call that is refused with 1 to 6 has an answer too, of 3 bytes, the
/// first of which is the number; the image is then as it was.
///
/// Refused with `WrongLength`, `NotAccepted` or `NoFrame` where no call was made; they are looked at in this order.
/// Image and buffer are then as they were.
///
/// Any bytes of any length may be passed. The library asks that the three areas do not overlap, and that nobody else
/// touches image and answer, or writes the frame, until the call returns: the three borrows see to it.
pub fn step(image: &mut [u8], frame: &[u8], answer: &mut [u8]) -> Result<usize, Refusal> {
    // SAFETY: each pointer is good for its slice's length. The two `&mut` overlap nothing and keep all others off image
    // and answer until the call returns; `&` keeps all others from writing the frame, and the library only reads it.
    let returned = unsafe {
        library_step(image.as_mut_ptr(), image.len(), frame.as_ptr(), frame.len(), answer.as_mut_ptr(), answer.len())
    };
    match usize::try_from(returned) {
        Ok(length @ VALUE_AT..=ANSWER_BYTES) => Ok(length),
        _ => Err(Refusal::of(returned)),
    }
}

// ---- Version ----

/// The version of this file and of the library that it is for: major * 10000 + minor * 100 + patch, here 1.0.0.
///
/// Another major says that an image, a frame or an answer of before is not understood, or means something else; another
/// minor that there are new calls or functions; another patch neither. Store it beside an image that you keep.
pub const VERSION: u32 = 10000;

// ---- Sizes ----

/// Tasks stand in slots 0 to 63.
pub const SLOTS: usize = 64;
/// Cores are 0 to 63.
pub const CORES: usize = 64;
/// An image has exactly this many bytes.
pub const IMAGE_BYTES: usize = 3275;
/// The longest answer: a buffer has at least this many bytes.
pub const ANSWER_BYTES: usize = 51;
/// The longest frame, which is create's.
pub const FRAME_BYTES: usize = 30;
/// No call takes more stack than this; docs/host.md has what was measured.
pub const STACK_BYTES: usize = 32768;

// ---- Calls: the first byte of a frame, and the frame's length ----
//
// From byte 1 on stand the fields, one behind the other, each with its number of bytes. A slot or a core takes 8 and
// may be any number. So a slot or a core is at byte 1, a mask or microseconds at byte 9. "Comes back" is the answer's
// value, from `VALUE_AT` on; a refused call has none. A call that names no refusal is refused with none of 1 to 6.

/// Makes a task in the lowest free slot: Blocked, on all cores. Enqueue or wake it next.
///
/// Fields: tid 4, band 1, context 8, cr3 8, rsp0 8 (at bytes 1, 5, 6, 14, 22). Comes back: the slot, 1 byte. Refused: 1
/// if no slot is free.
pub const CREATE: u8 = 0x00;
/// The length of create's frame.
pub const CREATE_BYTES: usize = 30;

/// Sets the cores that a slot may use: bit N of the mask permits core N, and a mask of 0 is taken as all of them. A
/// core that holds the task goes on with it. Create sets all again.
///
/// Fields: slot 8, mask 8. Comes back: nothing. Refused: 3 if the slot is 64 or above; a free one will do.
pub const AFFINITY: u8 = 0x01;
/// The length of affinity's frame.
pub const AFFINITY_BYTES: usize = 17;

/// Frees a slot: out of every queue, held by no core.
///
/// Fields: slot 8. Comes back: nothing. Refused: 3 if the slot is 64 or above; a free one will do.
pub const TERMINATE: u8 = 0x02;
/// The length of terminate's frame.
pub const TERMINATE_BYTES: usize = 9;

/// Takes a task out of its queue and makes it Blocked, with nothing consumed; a core that holds it goes on holding it.
/// Block a task that runs only while its core holds it, seen in the same lock: by now its slot may be another's.
///
/// Fields: slot 8. Comes back: nothing. Refused: 3 if the slot is 64 or above or free, then 5 if it is Blocked.
pub const BLOCK: u8 = 0x03;
/// The length of block's frame.
pub const BLOCK_BYTES: usize = 9;

/// Ends a block: Running where a core still holds the task, else Ready at the tail of its band.
///
/// Fields: slot 8. Comes back: nothing. Refused: 3 if the slot is 64 or above or free, then 6 if it is not Blocked.
pub const WAKE: u8 = 0x04;
/// The length of wake's frame.
pub const WAKE_BYTES: usize = 9;

/// Puts a Blocked or Running task at the tail of its band: Ready. A core that holds it goes on holding it, while
/// another may pick it: so enqueue tasks that no core holds, and wake those that were blocked.
///
/// Fields: slot 8. Comes back: nothing. Refused: 3 if the slot is 64 or above or free, then 4 if it is Ready.
pub const ENQUEUE: u8 = 0x05;
/// The length of enqueue's frame.
pub const ENQUEUE_BYTES: usize = 9;

/// Picks a task for a core, which then holds it, or nobody if nobody waits who may use it. The task that it held is not
/// queued: a Running one stays Running, in no queue and on no core, and is not picked again until it is enqueued, or
/// blocked and woken. The image is accepted all the same, so that nothing shows the loss. So call it only where you have
/// had the lock since you saw that the core holds nobody, or a task that is Ready or Blocked, or where you enqueue the
/// one left before you give the lock back. Anywhere else a tick of 0 microseconds does it: on a core that holds nobody
/// it picks, and a task that another tick has given the core meanwhile goes on, or back to its queue.
///
/// Fields: core 8. Comes back: the slot, or `NONE`, 1 byte. A core of 64 or above gives `NONE`, and nothing is changed.
pub const SCHEDULE: u8 = 0x06;
/// The length of schedule's frame.
pub const SCHEDULE_BYTES: usize = 9;

/// A core's timer: adds the time to the task that it holds. Where its slice is over, or a task that may use this core
/// waits in an earlier band, it goes to the tail of its band, unless it is Ready and waits there already, and there is a
/// pick, which may be it again. So too where it is Blocked, without being queued, and where the core holds nobody. With
/// 0 microseconds it is for a core that may be without a task: after a terminate, a wake or a refused handoff.
///
/// Fields: core 8, elapsed microseconds 4. Comes back: the slot to run, or `NONE`, 1 byte. A core of 64 or above gives
/// `NONE`, and nothing is changed.
pub const TICK: u8 = 0x07;
/// The length of tick's frame.
pub const TICK_BYTES: usize = 13;

/// A core's Running task goes to the tail of its band, then a pick.
///
/// Fields: core 8. Comes back: a plan. Refused: 3 if the core is 64 or above, or holds a task that is not Running; a
/// core that holds nobody will do.
pub const YIELD: u8 = 0x08;
/// The length of yield's frame.
pub const YIELD_BYTES: usize = 9;

/// A pick in place of a core's Blocked task; a Running one goes on, and there is no plan.
///
/// Fields: core 8. Comes back: a plan. Refused: 3 if the core is 64 or above or holds nobody, where a tick of 0
/// microseconds is right, then 6 if it holds a Ready one, where a schedule is, before the lock is given back.
pub const HANDOFF: u8 = 0x09;
/// The length of handoff's frame.
pub const HANDOFF_BYTES: usize = 9;

/// A tick that comes back as a plan; a core of 64 or above has none, and nothing is changed.
///
/// Fields: core 8, elapsed microseconds 4. Comes back: a plan.
pub const PLAN: u8 = 0x0a;
/// The length of plan's frame.
pub const PLAN_BYTES: usize = 13;

/// Whether a slot's mask permits a core, which is taken modulo 64. A query: it changes nothing.
///
/// Fields: slot 8, core 8. Comes back: 0 or 1, 1 byte; 0 for a slot of 64 or above.
pub const CAN_RUN_ON_CORE: u8 = 0x0b;
/// The length of its frame.
pub const CAN_RUN_ON_CORE_BYTES: usize = 17;

/// The lowest slot in use that has a tid. A query.
///
/// Fields: tid 4. Comes back: the slot, or `NONE`, 1 byte.
pub const TASK_INDEX_FOR_TID: u8 = 0x0c;
/// The length of its frame.
pub const TASK_INDEX_FOR_TID_BYTES: usize = 5;

/// A slot's record. A query. A free slot has one too, with what its last task had: look at in use.
///
/// Fields: slot 8. Comes back: 1 and the record, 48 bytes; or 0 for a slot of 64 or above, 1 byte.
pub const TASK: u8 = 0x0d;
/// The length of its frame.
pub const TASK_BYTES: usize = 9;

/// The record of the task that a core holds. A query.
///
/// Fields: core 8. Comes back: 1 and the record, 48 bytes; or 0 if there is none or the core is 64 or above, 1 byte.
pub const CURRENT_TASK_ON_CPU: u8 = 0x0e;
/// The length of its frame.
pub const CURRENT_TASK_ON_CPU_BYTES: usize = 9;

/// The microseconds that ticks and plans have reported, added up over all cores: no clock. A query.
///
/// Fields: none. Comes back: 8 bytes.
pub const SYSTEM_MICROSECONDS: u8 = 0x0f;
/// The length of its frame.
pub const SYSTEM_MICROSECONDS_BYTES: usize = 1;

/// The lowest core that holds a slot. A query.
///
/// Fields: slot 8. Comes back: the core, or `NONE`, 1 byte.
pub const HOLDER: u8 = 0x10;
/// The length of its frame.
pub const HOLDER_BYTES: usize = 9;

// ---- An answer's bytes ----

/// 0, or the number of a refusal.
pub const STATUS_AT: usize = 0;
/// The slot that was picked in this call, maybe the same again, or `NONE`.
pub const PICK_SLOT_AT: usize = 1;
/// The band that it was picked from, or `NONE`.
pub const PICK_BAND_AT: usize = 2;
/// What comes back, by the call.
pub const VALUE_AT: usize = 3;

/// The status of a call that is not refused.
pub const DONE: u8 = 0x00;
/// No slot, no core, no band; as the target of a plan: idle.
pub const NONE: u8 = 0xff;

// A plan is 0, 1 byte: the core holds whom it held before the call, or still nobody. Or it is 1 and what follows, 11
// bytes. Places count from `VALUE_AT`.

/// A plan's first byte, where the core is to switch.
pub const PLAN_SWITCH: u8 = 1;
/// The slot that the core held, or `NONE`. Counts from `VALUE_AT`.
pub const PLAN_PREVIOUS_AT: usize = 1;
/// The slot that it is to run, or `NONE`: idle. Counts from `VALUE_AT`.
pub const PLAN_TARGET_AT: usize = 2;
/// The target's cr3, 8 bytes; 0 if idle. Counts from `VALUE_AT`.
pub const PLAN_CR3_AT: usize = 3;

// ---- Refusals 1 to 6: an answer's status. The call changed nothing and picked nobody. ----

/// Create: no slot is free. Terminate a task first.
pub const TABLE_FULL: u8 = 1;
/// 64 entries stand in the queue. It is proved that this is never answered.
pub const QUEUE_FULL: u8 = 2;
/// No such slot or core, or nobody there whom the call is for: see the call.
pub const NO_SUCH_TASK: u8 = 3;
/// Enqueue: it waits in its queue. Nothing is to be done.
pub const ALREADY_READY: u8 = 4;
/// Block: it is Blocked. Nothing is to be done.
pub const ALREADY_BLOCKED: u8 = 5;
/// Wake: it is not Blocked, so it runs or waits; handoff: it is Ready, see there.
pub const NOT_BLOCKED: u8 = 6;

// ---- Refusals 7 to 9: returned, with `REFUSED` added; here they come as a `Refusal`. Nothing was touched. ----

/// What the library's `step` returns is a length below this, or this and a refusal.
pub const REFUSED: u64 = 256;
/// The image does not have 3,275 bytes, or the answer buffer has under 51.
pub const WRONG_LENGTH: u64 = 7;
/// The bytes are no image: not `new_image`'s, or somebody else wrote there.
pub const NOT_ACCEPTED: u64 = 8;
/// The frame's first byte, length or band is wrong. Mend the caller.
pub const NO_FRAME: u64 = 9;

// ---- Bands: what a task is for. An earlier band runs before a later one. ----

/// Slices of 2,000 microseconds.
pub const USER_INTERACTIVE: u8 = 0;
/// Slices of 5,000 microseconds.
pub const REAL_TIME_IO: u8 = 1;
/// Slices of 20,000 microseconds.
pub const BACKGROUND: u8 = 2;
/// A frame with a band of this or above is refused with 9.
pub const BANDS: u8 = 3;

// ---- States of a task ----

/// It stands in its band's queue, once.
pub const READY: u8 = 0;
/// It was picked, or woken while a core held it.
pub const RUNNING: u8 = 1;
/// It waits for a wake or an enqueue.
pub const BLOCKED: u8 = 2;
/// The slot is free.
pub const TERMINATED: u8 = 3;

// ---- A record's bytes, in an image and behind the 1 of `TASK` ----

/// 4 bytes: the host's own number, which several tasks may share.
pub const TID_AT: usize = 0;
/// 1 byte: a band.
pub const BAND_AT: usize = 4;
/// 1 byte: a state.
pub const STATE_AT: usize = 5;
/// 8 bytes: the host's, kept as it was given.
pub const CONTEXT_AT: usize = 6;
/// 8 bytes: the host's, kept as it was given.
pub const CR3_AT: usize = 14;
/// 8 bytes: the host's, kept as it was given.
pub const RSP0_AT: usize = 22;
/// 8 bytes: bit N permits core N.
pub const MASK_AT: usize = 30;
/// 4 bytes: microseconds, 0 or the band's slice.
pub const BUDGET_AT: usize = 38;
/// 4 bytes: microseconds of it that are gone.
pub const CONSUMED_AT: usize = 42;
/// 1 byte: 0 or 1.
pub const IN_USE_AT: usize = 46;
/// The length of a record.
pub const RECORD_BYTES: usize = 47;

// ---- An image's bytes. A host may read them between calls; it writes them only by copying an image whole. ----

/// Slot S's record is at S * `RECORD_BYTES`.
pub const RECORDS_AT: usize = 0;
/// Band B's queue is at this + B * `QUEUE_BYTES`.
pub const QUEUES_AT: usize = 3008;
/// A length, then 64 slots from front to tail; those behind the length are 0.
pub const QUEUE_BYTES: usize = 65;
/// The slot that core C holds is at this + C; `NONE` if none.
pub const HOLDERS_AT: usize = 3203;
/// 8 bytes: what `SYSTEM_MICROSECONDS` answers.
pub const MICROS_AT: usize = 3267;

// ---- Big-endian numbers ----

/// Writes a number as that many bytes, the largest first; what has no room is left out.
pub fn put(at: &mut [u8], number: u64) {
    let mut rest = number;
    for byte in at.iter_mut().rev() {
        *byte = (rest & 0xff) as u8;
        rest >>= 8;
    }
}

/// The number that stands in these bytes, at most 8.
pub fn get(bytes: &[u8]) -> u64 {
    bytes.iter().fold(0, |number, &byte| number << 8 | u64::from(byte))
}
