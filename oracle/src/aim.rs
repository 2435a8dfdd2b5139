//! Which line comes next in a random list: a call, mostly aimed at a slot or core that it is meant for in the Rust's
//! state by then, a query, or a line that is no frame.

use crate::dice::Dice;
use crate::driver::Driver;
use crate::frames::{self, Call};
use crate::moods::{Mood, NO_FRAME, QUERY};
use crate::spoil::spoiled;
use kscheduler::{TaskControlBlock, ThreadState, MAX_TASKS};

/// Of 100 slots and cores that are not far ones, those that are looked for; the others are any slot of the table, or any
/// core of the mood.
const AIMED: u64 = 85;

pub struct Aim {
    pub dice: Dice,
    pub mood: &'static Mood,
}

impl Aim {
    /// The next line, and the call that it asks for; none where it is no frame.
    pub fn line(&mut self, rust: &Driver, spoils: bool) -> (Vec<u8>, Option<Call>) {
        let call = match self.dice.weighted(&self.mood.lines) {
            NO_FRAME if spoils => {
                let number = self.dice.among(&[frames::AFFINITY, frames::ENQUEUE, frames::SCHEDULE, frames::TICK]);
                let frame = self.call(number, rust).line();
                return (spoiled(&mut self.dice, &frame), None);
            }
            QUERY | NO_FRAME => self.query(rust),
            number => self.call(number as u8, rust),
        };
        (call.line().into_bytes(), Some(call))
    }

    /// One of the calls 00 to 0a.
    fn call(&mut self, number: u8, rust: &Driver) -> Call {
        use ThreadState::{Blocked, Ready, Running};
        let arguments = match number {
            frames::CREATE => return self.create(),
            frames::AFFINITY => vec![self.slot(rust, |task| task.state == Ready), self.mask()],
            frames::TERMINATE => vec![self.slot(rust, |task| task.in_use)],
            frames::BLOCK => vec![self.slot(rust, |task| matches!(task.state, Ready | Running))],
            frames::WAKE => vec![self.slot(rust, |task| task.state == Blocked)],
            frames::ENQUEUE => vec![self.slot(rust, |task| matches!(task.state, Blocked | Running))],
            frames::TICK | frames::PLAN => {
                let core = self.core(rust, |_| true);
                vec![core, self.elapsed(rust, core)]
            }
            frames::YIELD => vec![self.core(rust, |holder| holder.is_none_or(|task| task.state == Running))],
            frames::HANDOFF => vec![self.core(rust, |holder| holder.is_some_and(|task| task.state == Blocked))],
            _ => vec![self.core(rust, |_| true)],
        };
        Call::new(number, &arguments)
    }

    pub fn create(&mut self) -> Call {
        let band = self.dice.weighted(&self.mood.bands) as u64;
        let arguments = [self.tid(), band, self.wide(), self.wide(), self.wide()];
        Call::new(frames::CREATE, &arguments)
    }

    fn query(&mut self, rust: &Driver) -> Call {
        let number = self.dice.among(&[
            frames::CAN_RUN_ON_CORE,
            frames::TASK_INDEX_FOR_TID,
            frames::TASK_INDEX_FOR_TID,
            frames::TASK,
            frames::CURRENT_TASK_ON_CPU,
            frames::SYSTEM_TICKS_US,
            frames::HOLDER,
            frames::HOLDER,
        ]);
        let arguments = match number {
            frames::CAN_RUN_ON_CORE => vec![self.slot(rust, |task| task.in_use), self.core(rust, |_| true)],
            frames::TASK_INDEX_FOR_TID => vec![self.tid()],
            frames::CURRENT_TASK_ON_CPU => vec![self.core(rust, |holder| holder.is_some())],
            frames::SYSTEM_TICKS_US => vec![],
            _ => vec![self.slot(rust, |task| task.in_use)],
        };
        Call::new(number, &arguments)
    }

    /// A slot with such a record, most of the time and where there is one; first among the cores' holders if the mood
    /// says so.
    fn slot(&mut self, rust: &Driver, wanted: impl Fn(&TaskControlBlock) -> bool) -> u64 {
        if self.dice.percent(self.mood.far) {
            return self.far();
        }
        if self.dice.percent(self.mood.held) {
            let core = self.core_where(rust, |holder| holder.is_some_and(&wanted));
            if let Some(slot) = core.and_then(|core| rust.holder(core as usize)) {
                return slot as u64;
            }
        }
        let slots = MAX_TASKS as u64;
        let any = self.dice.below(slots);
        if !self.dice.percent(AIMED) {
            return any;
        }
        let mut from_there_on = (any..slots).chain(0..any);
        from_there_on.find(|&slot| rust.task(slot as usize).is_some_and(&wanted)).unwrap_or(any)
    }

    /// A core with such a holder, most of the time and where there is one.
    fn core(&mut self, rust: &Driver, wanted: impl Fn(Option<&TaskControlBlock>) -> bool) -> u64 {
        if self.dice.percent(self.mood.far) {
            return self.far();
        }
        let aimed = if self.dice.percent(AIMED) { self.core_where(rust, wanted) } else { None };
        aimed.unwrap_or_else(|| self.any_core())
    }

    fn core_where(&mut self, rust: &Driver, wanted: impl Fn(Option<&TaskControlBlock>) -> bool) -> Option<u64> {
        let any = self.any_core();
        let cores = self.mood.cores.clone();
        (any..cores.end).chain(cores.start..any).find(|&core| wanted(rust.current_task(core as usize)))
    }

    fn any_core(&mut self) -> u64 {
        let cores = self.mood.cores.clone();
        cores.start + self.dice.below(cores.end - cores.start)
    }

    /// A slot or core about 64 or far above it. Some are small numbers once cut to 6, 8 or 32 bits.
    fn far(&mut self) -> u64 {
        let exact =
            self.dice.among(&[63, 63, 64, 64, 65, 127, 128, 255, 256, 1 << 32, 1 << 63, u64::MAX - 1, u64::MAX]);
        let cut = self.dice.among(&[64, 128, 256, 1 << 16, 1 << 32, 1 << 48, 1 << 63]) + self.dice.below(8);
        self.dice.among(&[exact, exact, cut])
    }

    pub fn mask(&mut self) -> u64 {
        let one = 1 << self.any_core();
        let other = 1 << self.any_core();
        if self.dice.percent(self.mood.narrow) {
            return self.dice.among(&[one, one, one | other, 1 << 63]);
        }
        let any = self.dice.number();
        self.dice.among(&[0, u64::MAX, !one, !(one | other), any, 1 << 63])
    }

    /// A tick's time, with an eye on the holder that it will be charged to.
    fn elapsed(&mut self, rust: &Driver, core: u64) -> u64 {
        let charged = rust.charged_on(core as usize);
        let (budget, consumed) = charged.map_or((0, 0), |task| (task.slice_budget_us, task.consumed_slice_us));
        let times = &self.mood.times;
        match self.dice.weighted(&[times.ordinary, times.near_the_end, times.largest]) {
            0 => self.dice.among(&[0, 1, 250, 499, 500, 500, 501, 1_000, 1_999, 2_000, 5_000, 19_999, 20_000]),
            1 => (u64::from(budget.saturating_sub(consumed)) + self.dice.below(3)).saturating_sub(1),
            _ => self.large_time(u64::from(consumed)),
        }
    }

    /// A large time, up to the domain's edge and seldom beyond it, or one whose sum is small once cut to 16 or 31 bits.
    fn large_time(&mut self, consumed: u64) -> u64 {
        let last_inside = u64::from(u32::MAX) - consumed;
        let any = self.dice.below(last_inside);
        let cut = self.dice.among(&[1 << 16, 1 << 31]) - consumed + self.dice.below(2);
        let beyond = self.dice.among(&[last_inside + 1, u64::from(u32::MAX)]).min(u64::from(u32::MAX));
        if self.dice.percent(4) {
            beyond
        } else {
            self.dice.among(&[any, cut, last_inside, last_inside, last_inside - 1])
        }
    }

    /// Mostly one of the mood's tids; else one that is the same when cut to 8 or 16 bits, or a large one.
    fn tid(&mut self) -> u64 {
        let tid = self.dice.below(self.mood.tids);
        let other = self.dice.among(&[1 << 8 | tid, 1 << 16 | tid, 1 << 31 | tid, u64::from(u32::MAX) - tid]);
        if self.dice.percent(90) {
            tid
        } else {
            other
        }
    }

    /// A context, cr3 or rsp0: they are kept and handed back, whatever they are.
    fn wide(&mut self) -> u64 {
        let any = self.dice.number();
        self.dice.among(&[0, any, any, any, u64::MAX])
    }
}
