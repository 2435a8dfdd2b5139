//! Document 01's answers: status, pick and value, written as a line of hexadecimal.

use kscheduler::{ContextSwitchPlan, ContextSwitchTarget, TaskControlBlock, ThreadState};

/// What stands for none in a slot, core or band byte.
const NONE: u8 = 0xff;

/// The status of a line that is no frame.
pub const NO_FRAME: u8 = 9;

pub struct Answer {
    /// 0, or the refusal's number.
    pub status: u8,
    pub pick: Option<Pick>,
    /// Nothing where the call is refused.
    pub value: Value,
}

/// The slot that rule P took in a call, and the band of its queue.
#[derive(Clone, Copy)]
pub struct Pick {
    pub slot: usize,
    pub band: u8,
}

pub enum Value {
    Nothing,
    /// A slot or a core, both below 64.
    Place(Option<usize>),
    Plan(Option<ContextSwitchPlan>),
    Flag(bool),
    Task(Option<TaskControlBlock>),
    Micros(u64),
}

impl Answer {
    pub fn done(pick: Option<Pick>, value: Value) -> Answer {
        Answer { status: 0, pick, value }
    }

    pub fn refused(status: u8) -> Answer {
        Answer { status, pick: None, value: Value::Nothing }
    }

    /// The answer's line, without the newline.
    pub fn line(&self) -> String {
        let (slot, band) = self.pick.map_or((NONE, NONE), |pick| (pick.slot as u8, pick.band));
        let mut line = format!("{:02x}{slot:02x}{band:02x}", self.status);
        match &self.value {
            Value::Nothing => {}
            Value::Place(place) => line += &byte(*place),
            Value::Plan(None) | Value::Task(None) => line += "00",
            Value::Plan(Some(plan)) => line += &plan_digits(plan),
            Value::Flag(flag) => line += if *flag { "01" } else { "00" },
            Value::Task(Some(task)) => line += &format!("01{}", record_digits(task)),
            Value::Micros(micros) => line += &format!("{micros:016x}"),
        }
        line
    }
}

/// 01, the previous holder, the target and its cr3; for the idle target none and 0.
fn plan_digits(plan: &ContextSwitchPlan) -> String {
    let (target, cr3) = match plan.target {
        ContextSwitchTarget::Task { task_idx, cr3 } => (Some(task_idx), cr3),
        ContextSwitchTarget::Idle => (None, 0),
    };
    format!("01{}{}{cr3:016x}", byte(plan.prev_task_idx), byte(target))
}

/// The record's 47 bytes.
pub fn record_digits(task: &TaskControlBlock) -> String {
    let state = match task.state {
        ThreadState::Ready => 0,
        ThreadState::Running => 1,
        ThreadState::Blocked => 2,
        ThreadState::Terminated => 3,
    };
    format!(
        "{:08x}{:02x}{state:02x}{:016x}{:016x}{:016x}{:016x}{:08x}{:08x}{:02x}",
        task.tid,
        task.qos as u8,
        task.context_handle,
        task.cr3,
        task.rsp0,
        task.cpu_affinity,
        task.slice_budget_us,
        task.consumed_slice_us,
        u8::from(task.in_use),
    )
}

/// A slot or core, or none.
pub fn byte(place: Option<usize>) -> String {
    format!("{:02x}", place.map_or(NONE, |place| place as u8))
}
