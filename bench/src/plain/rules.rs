//! The calls, by document 01's rules.

use super::answer::{Answer, Pick, Plan, Refusal, Target, Value};
use super::frame::Call;
use super::state::{Record, Scheduler, State, ALL_CORES, CORES};

impl Scheduler {
    /// Makes a call. Where it is refused, the state is as it was.
    pub fn make(&mut self, call: Call) -> Result<Answer, Refusal> {
        match call {
            Call::Create { tid, band, context, cr3, rsp0 } => {
                self.create(Record { tid, band, context, cr3, rsp0, ..Record::EMPTY })
            }
            Call::Affinity { slot, mask } => self.set_affinity(slot, mask),
            Call::Terminate { slot } => self.terminate(slot),
            Call::Block { slot } => self.block(slot),
            Call::Wake { slot } => self.wake(slot),
            Call::Enqueue { slot } => self.enqueue(slot),
            Call::Schedule { core } => Ok(self.schedule(core)),
            Call::Tick { core, elapsed } => Ok(self.tick(core, elapsed).answer()),
            Call::Yield { core } => self.give_way(core),
            Call::Handoff { core } => self.hand_off(core),
            Call::Plan { core, elapsed } => Ok(self.plan_tick(core, elapsed)),
            Call::CanRunOnCore { slot, core } => given(Value::Flag(self.may_run_on(slot, core))),
            Call::TaskIndexForTid { tid } => given(Value::Place(self.slot_of(tid))),
            Call::Task { slot } => given(Value::Task(self.records.get(slot).copied())),
            Call::CurrentTaskOnCpu { core } => given(Value::Task(self.holder(core).map(|slot| self.records[slot]))),
            Call::SystemTicksUs => given(Value::Micros(self.micros)),
            Call::Holder { slot } => given(Value::Place(self.core_of(slot))),
        }
    }

    fn create(&mut self, record: Record) -> Result<Answer, Refusal> {
        let slot = self.records.iter().position(|record| !record.in_use).ok_or(Refusal::TableFull)?;
        self.records[slot] = Record { state: State::Blocked, in_use: true, ..record };
        given(Value::Place(Some(slot)))
    }

    fn set_affinity(&mut self, slot: usize, mask: u64) -> Result<Answer, Refusal> {
        let record = self.records.get_mut(slot).ok_or(Refusal::NoSuchTask)?;
        record.mask = if mask == 0 { ALL_CORES } else { mask };
        given(Value::Nothing)
    }

    fn terminate(&mut self, slot: usize) -> Result<Answer, Refusal> {
        let record = self.records.get_mut(slot).ok_or(Refusal::NoSuchTask)?;
        record.state = State::Terminated;
        record.in_use = false;
        self.queues[record.band as usize].remove(slot);
        for holder in self.holders.iter_mut().filter(|holder| **holder == Some(slot)) {
            *holder = None;
        }
        given(Value::Nothing)
    }

    /// It stays the holder, if it is one.
    fn block(&mut self, slot: usize) -> Result<Answer, Refusal> {
        let record = self.record_in_use(slot)?;
        if record.state == State::Blocked {
            return Err(Refusal::AlreadyBlocked);
        }
        record.state = State::Blocked;
        record.consumed = 0;
        let band = record.band;
        self.queues[band as usize].remove(slot);
        given(Value::Nothing)
    }

    fn wake(&mut self, slot: usize) -> Result<Answer, Refusal> {
        if self.record_in_use(slot)?.state != State::Blocked {
            return Err(Refusal::NotBlocked);
        }
        if self.holders.contains(&Some(slot)) {
            self.records[slot].state = State::Running;
            return given(Value::Nothing);
        }
        self.enqueue(slot)
    }

    fn enqueue(&mut self, slot: usize) -> Result<Answer, Refusal> {
        let record = self.record_in_use(slot)?;
        if record.state == State::Ready {
            return Err(Refusal::AlreadyReady);
        }
        let band = record.band;
        let queue = &mut self.queues[band as usize];
        if queue.is_full() {
            return Err(Refusal::QueueFull);
        }
        queue.push(slot);
        self.records[slot].state = State::Ready;
        given(Value::Nothing)
    }

    fn schedule(&mut self, core: usize) -> Answer {
        let pick = if core < CORES { self.pick(core) } else { None };
        Answer { pick, value: Value::Place(pick.map(|pick| pick.slot)) }
    }

    fn tick(&mut self, core: usize, elapsed: u32) -> Ticked {
        if core >= CORES {
            return Ticked { pick: None, runs: None };
        }
        self.micros = self.micros.wrapping_add(u64::from(elapsed));
        let runs = self.holders[core].filter(|&slot| self.records[slot].state != State::Blocked);
        let Some(slot) = runs else { return self.pick(core).into() };

        let record = &self.records[slot];
        // A sum that is too large for its type ends the slice, as any other that reaches the budget.
        let consumed = record.consumed.checked_add(elapsed).filter(|&consumed| consumed < record.budget);
        match consumed {
            Some(consumed) if !self.earlier_waits(slot, core) => {
                self.records[slot].consumed = consumed;
                Ticked { pick: None, runs }
            }
            _ => {
                self.records[slot].consumed = 0;
                // It is refused if it is Ready: then it waits already.
                let _ = self.enqueue(slot);
                self.pick(core).into()
            }
        }
    }

    /// Yield. A core without a holder only picks.
    fn give_way(&mut self, core: usize) -> Result<Answer, Refusal> {
        let previous = *self.holders.get(core).ok_or(Refusal::NoSuchTask)?;
        if let Some(slot) = previous {
            if self.records[slot].state != State::Running {
                return Err(Refusal::NoSuchTask);
            }
            self.enqueue(slot)?;
        }
        Ok(self.plan_pick(core, previous))
    }

    fn hand_off(&mut self, core: usize) -> Result<Answer, Refusal> {
        let slot = self.holder(core).ok_or(Refusal::NoSuchTask)?;
        match self.records[slot].state {
            State::Running => given(Value::Plan(None)),
            State::Blocked => Ok(self.plan_pick(core, Some(slot))),
            _ => Err(Refusal::NotBlocked),
        }
    }

    fn plan_tick(&mut self, core: usize, elapsed: u32) -> Answer {
        let previous = self.holder(core);
        let ticked = self.tick(core, elapsed);
        Answer { pick: ticked.pick, value: Value::Plan(self.plan(previous, ticked.runs)) }
    }

    fn plan_pick(&mut self, core: usize, previous: Option<usize>) -> Answer {
        let pick = self.pick(core);
        Answer { pick, value: Value::Plan(self.plan(previous, pick.map(|pick| pick.slot))) }
    }

    /// There is no plan where the core goes on with what it did.
    fn plan(&self, previous: Option<usize>, next: Option<usize>) -> Option<Plan> {
        let target = next.map(|slot| Target { slot, cr3: self.records[slot].cr3 });
        (next != previous).then_some(Plan { previous, target })
    }

    /// Rule P, for a core that there is.
    fn pick(&mut self, core: usize) -> Option<Pick> {
        let slot = self.take_permitted(core);
        self.holders[core] = slot;
        let slot = slot?;
        let record = &mut self.records[slot];
        record.state = State::Running;
        record.budget = record.band.slice();
        record.consumed = 0;
        Some(Pick { slot, band: record.band })
    }

    /// Takes out of the queues the first entry that the core may run.
    fn take_permitted(&mut self, core: usize) -> Option<usize> {
        let records = &self.records;
        self.queues.iter_mut().find_map(|queue| {
            let place = queue.entries().iter().position(|&slot| records[usize::from(slot)].may_run_on(core))?;
            Some(queue.take(place))
        })
    }

    /// Whether an entry that the core may run waits in an earlier band than the slot's.
    fn earlier_waits(&self, slot: usize, core: usize) -> bool {
        let earlier = &self.queues[..self.records[slot].band as usize];
        earlier.iter().flat_map(|queue| queue.entries()).any(|&slot| self.records[usize::from(slot)].may_run_on(core))
    }

    fn record_in_use(&mut self, slot: usize) -> Result<&mut Record, Refusal> {
        self.records.get_mut(slot).filter(|record| record.in_use).ok_or(Refusal::NoSuchTask)
    }

    fn holder(&self, core: usize) -> Option<usize> {
        self.holders.get(core).copied().flatten()
    }

    fn may_run_on(&self, slot: usize, core: usize) -> bool {
        self.records.get(slot).is_some_and(|record| record.may_run_on(core))
    }

    /// The lowest slot in use that has the tid.
    fn slot_of(&self, tid: u32) -> Option<usize> {
        self.records.iter().position(|record| record.in_use && record.tid == tid)
    }

    /// The lowest core that holds the slot.
    fn core_of(&self, slot: usize) -> Option<usize> {
        self.holders.iter().position(|&holder| holder == Some(slot))
    }
}

/// What a tick did: the pick, and who runs on the core now.
struct Ticked {
    pick: Option<Pick>,
    runs: Option<usize>,
}

impl Ticked {
    fn answer(self) -> Answer {
        Answer { pick: self.pick, value: Value::Place(self.runs) }
    }
}

impl From<Option<Pick>> for Ticked {
    fn from(pick: Option<Pick>) -> Ticked {
        Ticked { pick, runs: pick.map(|pick| pick.slot) }
    }
}

/// The answer of a call that picks nobody.
fn given(value: Value) -> Result<Answer, Refusal> {
    Ok(Answer { pick: None, value })
}
