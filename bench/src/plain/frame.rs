//! A frame's bytes read as a call.

use super::bytes::Reader;
use super::state::Band;
use crate::frames;

pub enum Call {
    Create { tid: u32, band: Band, context: u64, cr3: u64, rsp0: u64 },
    Affinity { slot: usize, mask: u64 },
    Terminate { slot: usize },
    Block { slot: usize },
    Wake { slot: usize },
    Enqueue { slot: usize },
    Schedule { core: usize },
    Tick { core: usize, elapsed: u32 },
    Yield { core: usize },
    Handoff { core: usize },
    Plan { core: usize, elapsed: u32 },
    CanRunOnCore { slot: usize, core: usize },
    TaskIndexForTid { tid: u32 },
    Task { slot: usize },
    CurrentTaskOnCpu { core: usize },
    SystemTicksUs,
    Holder { slot: usize },
}

impl Call {
    /// None for an unknown call, a wrong length, or a band above 2.
    pub fn read(frame: &[u8]) -> Option<Call> {
        let mut from = Reader::new(frame);
        let call = match from.u8()? {
            frames::CREATE => Call::create(&mut from)?,
            frames::AFFINITY => Call::Affinity { slot: place(&mut from)?, mask: from.u64()? },
            frames::TERMINATE => Call::Terminate { slot: place(&mut from)? },
            frames::BLOCK => Call::Block { slot: place(&mut from)? },
            frames::WAKE => Call::Wake { slot: place(&mut from)? },
            frames::ENQUEUE => Call::Enqueue { slot: place(&mut from)? },
            frames::SCHEDULE => Call::Schedule { core: place(&mut from)? },
            frames::TICK => Call::Tick { core: place(&mut from)?, elapsed: from.u32()? },
            frames::YIELD => Call::Yield { core: place(&mut from)? },
            frames::HANDOFF => Call::Handoff { core: place(&mut from)? },
            frames::PLAN => Call::Plan { core: place(&mut from)?, elapsed: from.u32()? },
            frames::CAN_RUN_ON_CORE => Call::CanRunOnCore { slot: place(&mut from)?, core: place(&mut from)? },
            frames::TASK_INDEX_FOR_TID => Call::TaskIndexForTid { tid: from.u32()? },
            frames::TASK => Call::Task { slot: place(&mut from)? },
            frames::CURRENT_TASK_ON_CPU => Call::CurrentTaskOnCpu { core: place(&mut from)? },
            frames::SYSTEM_TICKS_US => Call::SystemTicksUs,
            frames::HOLDER => Call::Holder { slot: place(&mut from)? },
            _ => return None,
        };
        from.is_at_end().then_some(call)
    }

    fn create(from: &mut Reader) -> Option<Call> {
        Some(Call::Create {
            tid: from.u32()?,
            band: Band::of(from.u8()?)?,
            context: from.u64()?,
            cr3: from.u64()?,
            rsp0: from.u64()?,
        })
    }
}

/// A slot or a core: eight bytes, of which nothing is cut off on a machine of 64 bits.
fn place(from: &mut Reader) -> Option<usize> {
    from.u64().map(|number| number as usize)
}
