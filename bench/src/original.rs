//! The Rust scheduler as a kernel in Rust calls it: its methods, in process. A list is turned into requests before it
//! is timed, so that no frame is read meanwhile.

use crate::answers::record_digits;
use crate::frames::{self, digits_of, Call};
use crate::image;
use crate::lists::List;
use crate::Wrong;
use kscheduler::{QoSClass, QoSScheduler, MAX_CPUS, MAX_TASKS};
use std::hint::black_box;
use std::time::{Duration, Instant};

/// The calls that stand in the lists.
enum Request {
    Create { tid: u32, class: QoSClass, context: u64, cr3: u64, rsp0: u64 },
    Affinity { slot: usize, mask: u64 },
    Block(usize),
    Wake(usize),
    Enqueue(usize),
    Tick { core: usize, elapsed: u32 },
    Yield(usize),
    Handoff(usize),
    Plan { core: usize, elapsed: u32 },
}

pub struct Original {
    set_up: Vec<Request>,
    requests: Vec<Request>,
}

impl Original {
    pub fn of(list: &List) -> Original {
        let requests = |calls: &[Call]| calls.iter().map(request).collect();
        Original { set_up: requests(&list.set_up), requests: requests(&list.calls) }
    }

    /// Times the list from its set-up, which is made anew since the scheduler can't be cloned. The state at the end
    /// must be the image's.
    pub fn timed(&self, end: &[u8]) -> Result<Duration, Wrong> {
        let mut rust = QoSScheduler::new();
        self.set_up.iter().for_each(|request| make(&mut rust, request));
        let begin = Instant::now();
        for request in &self.requests {
            make(&mut rust, request);
        }
        let time = begin.elapsed();
        match is_of(&rust, end) {
            true => Ok(time),
            false => Err(Wrong::Different("the Rust's state behind a timed list is not that of step".into())),
        }
    }
}

/// Makes a call. Its answer is kept from being optimised away.
fn make(rust: &mut QoSScheduler, request: &Request) {
    match *request {
        Request::Create { tid, class, context, cr3, rsp0 } => {
            kept(rust.create_task_with_vspace(tid, class, context, cr3, rsp0))
        }
        Request::Affinity { slot, mask } => kept(rust.set_task_affinity(slot, mask)),
        Request::Block(slot) => kept(rust.block_task(slot)),
        Request::Wake(slot) => kept(rust.wake_task(slot)),
        Request::Enqueue(slot) => kept(rust.enqueue_ready(slot)),
        Request::Tick { core, elapsed } => kept(rust.on_timer_tick_on_cpu(core, elapsed)),
        Request::Yield(core) => kept(rust.plan_voluntary_yield_on_cpu(core)),
        Request::Handoff(core) => kept(rust.plan_blocked_current_handoff_on_cpu(core)),
        Request::Plan { core, elapsed } => kept(rust.plan_context_switch_on_cpu(core, elapsed)),
    }
}

fn kept<T>(answer: T) {
    black_box(&answer);
}

fn request(call: &Call) -> Request {
    match (call.number, call.arguments.as_slice()) {
        (frames::CREATE, &[tid, band, context, cr3, rsp0]) => {
            Request::Create { tid: tid as u32, class: class(band), context, cr3, rsp0 }
        }
        (frames::AFFINITY, &[slot, mask]) => Request::Affinity { slot: slot as usize, mask },
        (frames::BLOCK, &[slot]) => Request::Block(slot as usize),
        (frames::WAKE, &[slot]) => Request::Wake(slot as usize),
        (frames::ENQUEUE, &[slot]) => Request::Enqueue(slot as usize),
        (frames::TICK, &[core, elapsed]) => Request::Tick { core: core as usize, elapsed: elapsed as u32 },
        (frames::YIELD, &[core]) => Request::Yield(core as usize),
        (frames::HANDOFF, &[core]) => Request::Handoff(core as usize),
        (frames::PLAN, &[core, elapsed]) => Request::Plan { core: core as usize, elapsed: elapsed as u32 },
        _ => unreachable!("{call:?} stands in no list"),
    }
}

fn class(band: u64) -> QoSClass {
    [QoSClass::UserInteractive, QoSClass::RealTimeIO, QoSClass::Background][band as usize]
}

/// Whether the Rust's records, holders and microseconds are the image's. No method of the Rust shows its queues.
fn is_of(rust: &QoSScheduler, end: &[u8]) -> bool {
    let record_is = |slot| {
        rust.task(slot)
            .map(record_digits)
            .is_some_and(|digits| digits.as_bytes() == digits_of(image::record(end, slot)))
    };
    let holder_is = |core| {
        let held = rust.current_task_on_cpu(core).map(std::ptr::from_ref);
        let slot = image::holder(end, core);
        held == slot.and_then(|slot| rust.task(slot)).map(std::ptr::from_ref)
    };
    (0..MAX_TASKS).all(record_is)
        && (0..MAX_CPUS).all(holder_is)
        && rust.system_ticks_us().to_be_bytes() == image::micros(end)
}
