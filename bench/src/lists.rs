//! The lists of calls. They are drawn beside the Rust scheduler, which knows who runs where and who is Blocked, from a
//! fixed seed: so they are the same on every machine.

use crate::dice::Dice;
use crate::driver::Driver;
use crate::frames::{self, Call, CALLS};
use kscheduler::{ThreadState, MAX_CPUS, MAX_TASKS};

pub struct List {
    pub name: String,
    /// From new: creates, masks and enqueues. They are not timed.
    pub set_up: Vec<Call>,
    /// What is timed.
    pub calls: Vec<Call>,
}

const SEED: u64 = 1;

/// Every core reports once in a period.
const PERIODS: usize = 500;
const PERIOD_US: u64 = 500;

/// In how many of 100 turns a core's task blocks, and in how many the core yields.
const BLOCKS: u64 = 4;
const YIELDS: u64 = 4;

/// How many turns of cores a Blocked task waits on average until it is woken: some three periods. The more are Blocked,
/// the more are woken, so that as many are woken as block.
const TURNS_BLOCKED: u64 = 200;

const ALL_CORES: u64 = u64::MAX;

/// What a task is made with.
struct Task {
    band: u64,
    mask: u64,
}

/// A machine with as many tasks as cores, over three bands; every eighth may use eight cores only, all others all.
pub fn machine() -> List {
    let task = |slot| Task {
        band: band_of(slot, [16, 24]),
        mask: if slot % 8 == 7 { 0xff << (slot / 8 * 8) } else { ALL_CORES },
    };
    drawn("machine", 0, (0..MAX_TASKS as u64).map(task).collect())
}

/// Long queues and narrow masks: all but two tasks may use one or two of the first four cores only, and those of band 0
/// the first core, so that some 58 wait and most cores find nobody.
pub fn queues() -> List {
    let mut dice = Dice::new(SEED, 1);
    let mut task = |slot| {
        let band = band_of(slot, [8, 48]);
        let one_or_two = 1 << dice.below(4) | 1 << dice.below(4);
        let mask = match (slot % 32, band) {
            (31, _) => ALL_CORES,
            (_, 0) => 1,
            _ => one_or_two,
        };
        Task { band, mask }
    };
    let tasks = (0..MAX_TASKS as u64).map(&mut task).collect();
    drawn("queues", 2, tasks)
}

/// The list's ticks and plans, all as ticks, from the same set-up.
pub fn ticks_of(list: &List) -> List {
    let reports = list.calls.iter().filter(|call| matches!(call.number, frames::TICK | frames::PLAN));
    List {
        name: format!("{}, ticks", list.name),
        set_up: list.set_up.clone(),
        calls: reports.map(|call| Call::new(frames::TICK, &call.arguments)).collect(),
    }
}

/// The kinds of calls that there are, and how many of each, in the order of their numbers.
pub fn kinds(calls: &[Call]) -> Vec<(&'static str, usize)> {
    let count = |number: usize| calls.iter().filter(|call| usize::from(call.number) == number).count();
    let kinds = CALLS.iter().enumerate().map(|(number, (name, _))| (*name, count(number)));
    kinds.filter(|(_, count)| *count > 0).collect()
}

/// The band of a slot: so many slots are of band 0, then so many of band 1, and the rest are of band 2.
fn band_of(slot: u64, [first, second]: [u64; 2]) -> u64 {
    u64::from(slot >= first) + u64::from(slot >= first + second)
}

fn drawn(name: &str, number: u64, tasks: Vec<Task>) -> List {
    let mut drawing = Drawing { rust: Driver::new(), dice: Dice::new(SEED, number), calls: Vec::new() };
    drawing.set_up(&tasks);
    let set_up = std::mem::take(&mut drawing.calls);
    (0..PERIODS).for_each(|_| drawing.period());
    List { name: name.into(), set_up, calls: drawing.calls }
}

struct Drawing {
    rust: Driver,
    dice: Dice,
    calls: Vec<Call>,
}

impl Drawing {
    /// Adds a call, and makes it on the Rust.
    fn make(&mut self, number: u8, arguments: &[u64]) {
        let call = Call::new(number, arguments);
        self.rust.answer(&call).expect("no slice of 20,000 comes near the domain's edge by ticks of 500");
        self.calls.push(call);
    }

    /// Creates take the slots from 0 on. Every task has an address space and a stack of its own.
    fn set_up(&mut self, tasks: &[Task]) {
        for (slot, task) in (0..).zip(tasks) {
            let (tid, cr3, rsp0) = (100 + slot, (slot + 1) << 12, (slot + 1) << 20);
            self.make(frames::CREATE, &[tid, task.band, slot, cr3, rsp0]);
            if task.mask != ALL_CORES {
                self.make(frames::AFFINITY, &[slot, task.mask]);
            }
            self.make(frames::ENQUEUE, &[slot]);
        }
    }

    /// Every core's turn, in an order that is drawn: no core is the first each time.
    fn period(&mut self) {
        let mut cores: Vec<u64> = (0..MAX_CPUS as u64).collect();
        for last in (1..cores.len()).rev() {
            cores.swap(last, self.dice.below(last as u64 + 1) as usize);
        }
        cores.into_iter().for_each(|core| self.turn(core));
    }

    /// What happens on a core, sometimes, and its report, always.
    fn turn(&mut self, core: u64) {
        if self.dice.percent(BLOCKS) {
            if let Some(slot) = self.rust.holder(core as usize) {
                self.make(frames::BLOCK, &[slot as u64]);
                self.make(frames::HANDOFF, &[core]);
            }
        }
        if self.dice.percent(YIELDS) {
            self.make(frames::YIELD, &[core]);
        }
        let blocked = self.blocked();
        if self.dice.below(TURNS_BLOCKED) < blocked.len() as u64 {
            let slot = self.dice.among(&blocked);
            self.make(frames::WAKE, &[slot]);
        }
        let report = self.dice.among(&[frames::TICK, frames::PLAN]);
        self.make(report, &[core, PERIOD_US]);
    }

    fn blocked(&self) -> Vec<u64> {
        let state = |slot: u64| self.rust.task(slot as usize).map(|task| task.state);
        (0..MAX_TASKS as u64).filter(|&slot| state(slot) == Some(ThreadState::Blocked)).collect()
    }
}
