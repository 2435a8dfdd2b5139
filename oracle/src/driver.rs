//! The Rust scheduler, unchanged, behind document 01's calls and answers.
//!
//! The Rust answers most calls itself. Three things are read off its public methods around the call instead: which slot
//! a core holds, which slot a call picked, and whether a call is inside demand 2's domain. ../README.md says why they are
//! exact.

use crate::answers::{Answer, Pick, Value, NO_FRAME};
use crate::frames::{self, Call};
use kscheduler::{
    ContextSwitchPlan, QoSClass, QoSScheduler, SchedError, TaskControlBlock, ThreadState, MAX_CPUS, MAX_TASKS,
};
use std::fmt;

// Slots and cores are 8 bytes in a frame, and the Rust's `usize` must hold them all.
const _: () = assert!(usize::BITS == 64);

pub struct Driver {
    scheduler: QoSScheduler,
}

/// A tick or plan that demand 2 leaves out, since the Rust's sum overflows. The driver has not made the call.
#[derive(Debug)]
pub struct Outside {
    pub consumed: u32,
    pub elapsed: u32,
}

impl fmt::Display for Outside {
    fn fmt(&self, out: &mut fmt::Formatter) -> fmt::Result {
        write!(out, "consumed {} plus elapsed {} passes {}, outside of demand 2", self.consumed, self.elapsed, u32::MAX)
    }
}

/// A core's holder, as far as a tick can change it.
#[derive(Clone, Copy, PartialEq, Eq)]
struct Held {
    slot: usize,
    state: ThreadState,
    /// Wide enough for every sum.
    consumed: u64,
}

impl Driver {
    pub fn new() -> Driver {
        Driver { scheduler: QoSScheduler::new() }
    }

    /// Answers a line: makes the call that it asks for, if it is a frame.
    pub fn answer_line(&mut self, line: &[u8]) -> Result<Answer, Outside> {
        match Call::read(line) {
            Some(call) => self.answer(&call),
            None => Ok(Answer::refused(NO_FRAME)),
        }
    }

    /// Makes the call and answers it, or stops before it at the edge of the domain.
    pub fn answer(&mut self, call: &Call) -> Result<Answer, Outside> {
        let rust = &mut self.scheduler;
        Ok(match (call.number, call.arguments.as_slice()) {
            (frames::CREATE, &[tid, band, context, cr3, rsp0]) => {
                let made = rust.create_task_with_vspace(tid as u32, class(band), context, cr3, rsp0);
                settled(made.map(|slot| Value::Place(Some(slot))))
            }
            (frames::AFFINITY, &[slot, mask]) => settled(rust.set_task_affinity(slot as usize, mask).map(nothing)),
            (frames::TERMINATE, &[slot]) => settled(rust.terminate_task(slot as usize).map(nothing)),
            (frames::BLOCK, &[slot]) => settled(rust.block_task(slot as usize).map(nothing)),
            (frames::WAKE, &[slot]) => settled(rust.wake_task(slot as usize).map(nothing)),
            (frames::ENQUEUE, &[slot]) => settled(rust.enqueue_ready(slot as usize).map(nothing)),
            (frames::SCHEDULE, &[core]) => self.schedule(core as usize),
            (frames::TICK, &[core, elapsed]) => self.tick(core as usize, elapsed as u32)?,
            (frames::YIELD, &[core]) => self.voluntary_yield(core as usize),
            (frames::HANDOFF, &[core]) => self.handoff(core as usize),
            (frames::PLAN, &[core, elapsed]) => self.plan(core as usize, elapsed as u32)?,
            (frames::CAN_RUN_ON_CORE, &[slot, core]) => {
                told(Value::Flag(rust.can_run_on_core(slot as usize, core as usize)))
            }
            (frames::TASK_INDEX_FOR_TID, &[tid]) => told(Value::Place(rust.task_index_for_tid(tid as u32))),
            (frames::TASK, &[slot]) => told(Value::Task(rust.task(slot as usize).copied())),
            (frames::CURRENT_TASK_ON_CPU, &[core]) => {
                told(Value::Task(rust.current_task_on_cpu(core as usize).copied()))
            }
            (frames::SYSTEM_TICKS_US, &[]) => told(Value::Micros(self.micros())),
            (frames::HOLDER, &[slot]) => told(Value::Place(self.core_holding(slot as usize))),
            _ => unreachable!("{call:?} is no call of document 01"),
        })
    }

    fn schedule(&mut self, core: usize) -> Answer {
        let slot = self.scheduler.schedule_on_cpu(core);
        Answer::done(self.pick_of(slot), Value::Place(slot))
    }

    fn tick(&mut self, core: usize, elapsed: u32) -> Result<Answer, Outside> {
        self.stop_at_the_edge(core, elapsed)?;
        let before = self.held(core);
        let slot = self.scheduler.on_timer_tick_on_cpu(core, elapsed);
        let pick = self.pick_of(self.picked_in_tick(before, core, elapsed));
        Ok(Answer::done(pick, Value::Place(slot)))
    }

    fn plan(&mut self, core: usize, elapsed: u32) -> Result<Answer, Outside> {
        self.stop_at_the_edge(core, elapsed)?;
        let before = self.held(core);
        let plan = self.scheduler.plan_context_switch_on_cpu(core, elapsed);
        let pick = self.pick_of(self.picked_in_tick(before, core, elapsed));
        Ok(Answer::done(pick, Value::Plan(plan)))
    }

    /// A yield that is not refused comes to rule P, so what the core then holds is the pick.
    fn voluntary_yield(&mut self, core: usize) -> Answer {
        let planned = self.scheduler.plan_voluntary_yield_on_cpu(core);
        self.planned(planned, core, true)
    }

    /// A handoff that is not refused comes to rule P unless the holder is Running.
    fn handoff(&mut self, core: usize) -> Answer {
        let goes_on = self.current_task(core).is_some_and(|task| task.state == ThreadState::Running);
        let planned = self.scheduler.plan_blocked_current_handoff_on_cpu(core);
        self.planned(planned, core, !goes_on)
    }

    fn planned(&self, plan: Result<Option<ContextSwitchPlan>, SchedError>, core: usize, picks: bool) -> Answer {
        match plan {
            Ok(plan) => Answer::done(self.pick_of(self.holder(core).filter(|_| picks)), Value::Plan(plan)),
            Err(error) => Answer::refused(refusal(error)),
        }
    }

    /// Which slot a tick or plan on the core picked. Without a pick the core keeps its holder, which is charged; so a
    /// holder afterwards that is another, or is not as charging alone would leave it, was picked.
    fn picked_in_tick(&self, before: Option<Held>, core: usize, elapsed: u32) -> Option<usize> {
        let charged = before.map(|held| Held { consumed: held.consumed + u64::from(elapsed), ..held });
        let after = self.held(core)?;
        (Some(after) != charged).then_some(after.slot)
    }

    /// The pick of a slot. Its band is its record's: a task stands in the queue of its own band alone.
    fn pick_of(&self, slot: Option<usize>) -> Option<Pick> {
        let task = self.task(slot?)?;
        Some(Pick { slot: slot?, band: task.qos as u8 })
    }

    /// A tick adds to the consumed time of a holder that is Ready or Running; the sum must fit in 4 bytes.
    fn stop_at_the_edge(&self, core: usize, elapsed: u32) -> Result<(), Outside> {
        match self.charged_on(core).map(|task| task.consumed_slice_us) {
            Some(consumed) if consumed.checked_add(elapsed).is_none() => Err(Outside { consumed, elapsed }),
            _ => Ok(()),
        }
    }

    /// The holder that a tick on the core charges: any but a Blocked one.
    pub fn charged_on(&self, core: usize) -> Option<&TaskControlBlock> {
        let holder = self.current_task(core)?;
        matches!(holder.state, ThreadState::Ready | ThreadState::Running).then_some(holder)
    }

    fn held(&self, core: usize) -> Option<Held> {
        let task = self.current_task(core)?;
        Some(Held { slot: self.holder(core)?, state: task.state, consumed: u64::from(task.consumed_slice_us) })
    }

    /// The slot that a core holds. The Rust lends the holder's record out of its table; the slot is where that stands.
    pub fn holder(&self, core: usize) -> Option<usize> {
        let record = self.current_task(core)?;
        (0..MAX_TASKS).find(|&slot| self.task(slot).is_some_and(|task| std::ptr::eq(task, record)))
    }

    /// The lowest core that holds a slot.
    fn core_holding(&self, slot: usize) -> Option<usize> {
        let record = self.task(slot)?;
        (0..MAX_CPUS).find(|&core| self.current_task(core).is_some_and(|held| std::ptr::eq(held, record)))
    }

    pub fn task(&self, slot: usize) -> Option<&TaskControlBlock> {
        self.scheduler.task(slot)
    }

    pub fn micros(&self) -> u64 {
        self.scheduler.system_ticks_us()
    }

    pub fn current_task(&self, core: usize) -> Option<&TaskControlBlock> {
        self.scheduler.current_task_on_cpu(core)
    }
}

fn told(value: Value) -> Answer {
    Answer::done(None, value)
}

fn nothing(_: ()) -> Value {
    Value::Nothing
}

/// The answer of a call that picks nobody and may be refused.
fn settled(result: Result<Value, SchedError>) -> Answer {
    match result {
        Ok(value) => told(value),
        Err(error) => Answer::refused(refusal(error)),
    }
}

fn refusal(error: SchedError) -> u8 {
    match error {
        SchedError::TableFull => 1,
        SchedError::QueueFull => 2,
        SchedError::NoSuchTask => 3,
        SchedError::AlreadyReady => 4,
        SchedError::AlreadyBlocked => 5,
        SchedError::NotBlocked => 6,
    }
}

/// The band of a create that was read, so 0, 1 or 2.
fn class(band: u64) -> QoSClass {
    match band {
        0 => QoSClass::UserInteractive,
        1 => QoSClass::RealTimeIO,
        _ => QoSClass::Background,
    }
}
