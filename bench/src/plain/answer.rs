//! What a call gives, and the bytes of it.

use super::bytes::Writer;
use super::image::record_bytes;
use super::state::{Band, Record};

/// What stands for none in a slot, core or band byte.
const NONE: u8 = 0xff;

const DONE: u8 = 0;

/// The refusals of the calls, at their numbers.
#[derive(Clone, Copy)]
pub enum Refusal {
    TableFull = 1,
    QueueFull = 2,
    NoSuchTask = 3,
    AlreadyReady = 4,
    AlreadyBlocked = 5,
    NotBlocked = 6,
}

pub struct Answer {
    pub pick: Option<Pick>,
    pub value: Value,
}

/// The slot that a core took from the queues, and its band.
#[derive(Clone, Copy)]
pub struct Pick {
    pub slot: usize,
    pub band: Band,
}

pub enum Value {
    Nothing,
    /// A slot or a core.
    Place(Option<usize>),
    Plan(Option<Plan>),
    Flag(bool),
    Task(Option<Record>),
    Micros(u64),
}

pub struct Plan {
    pub previous: Option<usize>,
    /// None is idle.
    pub target: Option<Target>,
}

pub struct Target {
    pub slot: usize,
    pub cr3: u64,
}

/// Writes the bytes of an answer or of a refusal, and gives how many there are.
pub fn write(given: &Result<Answer, Refusal>, buffer: &mut [u8]) -> usize {
    let mut to = Writer::new(buffer);
    match given {
        Err(refusal) => to.put(&[*refusal as u8, NONE, NONE]),
        Ok(answer) => {
            let (slot, band) = answer.pick.map_or((NONE, NONE), |pick| (pick.slot as u8, pick.band as u8));
            to.put(&[DONE, slot, band]);
            write_value(&answer.value, &mut to);
        }
    }
    to.written
}

fn write_value(value: &Value, to: &mut Writer) {
    match value {
        Value::Nothing => {}
        Value::Place(place) => to.u8(byte(*place)),
        Value::Plan(None) | Value::Task(None) => to.u8(0),
        Value::Plan(Some(plan)) => {
            to.u8(1);
            write_plan(plan, to);
        }
        Value::Flag(flag) => to.u8(u8::from(*flag)),
        Value::Task(Some(record)) => {
            to.u8(1);
            to.put(&record_bytes(record));
        }
        Value::Micros(micros) => to.u64(*micros),
    }
}

fn write_plan(plan: &Plan, to: &mut Writer) {
    to.u8(byte(plan.previous));
    to.u8(byte(plan.target.as_ref().map(|target| target.slot)));
    to.u64(plan.target.as_ref().map_or(0, |target| target.cr3));
}

fn byte(place: Option<usize>) -> u8 {
    place.map_or(NONE, |place| place as u8)
}
