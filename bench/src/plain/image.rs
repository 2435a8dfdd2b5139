//! The state read from an image, if document 01 accepts it, and written back.

use super::bytes::{Reader, Writer};
use super::state::{Band, Queue, Record, Scheduler, State, BANDS, CORES, SLOTS};

const RECORD_BYTES: usize = 47;

/// What stands for none among the holders.
const NONE: u8 = 0xff;

impl Scheduler {
    /// None where the image is not accepted.
    pub fn read(image: &[u8]) -> Option<Scheduler> {
        let mut from = Reader::new(image);
        let mut records = [Record::EMPTY; SLOTS];
        for record in &mut records {
            *record = read_record(from.array()?)?;
        }
        let mut queues = [Queue::EMPTY; BANDS];
        for queue in &mut queues {
            *queue = read_queue(&mut from)?;
        }
        if !all_wait_once(&records, &queues) {
            return None;
        }
        let mut holders = [None; CORES];
        for holder in &mut holders {
            *holder = read_holder(&mut from, &records)?;
        }
        Some(Scheduler { records, queues, holders, micros: from.u64()? })
    }

    pub fn write(&self, image: &mut [u8]) {
        let mut to = Writer::new(image);
        self.records.iter().for_each(|record| to.put(&record_bytes(record)));
        self.queues.iter().for_each(|queue| write_queue(queue, &mut to));
        self.holders.iter().for_each(|holder| to.u8(holder.map_or(NONE, |slot| slot as u8)));
        to.u64(self.micros);
    }
}

fn read_record(bytes: &[u8; RECORD_BYTES]) -> Option<Record> {
    let mut from = Reader::new(bytes);
    let record = Record {
        tid: from.u32()?,
        band: Band::of(from.u8()?)?,
        state: State::of(from.u8()?)?,
        context: from.u64()?,
        cr3: from.u64()?,
        rsp0: from.u64()?,
        mask: from.u64()?,
        budget: from.u32()?,
        consumed: from.u32()?,
        in_use: read_flag(&mut from)?,
    };
    let slice = record.band.slice();
    let is_accepted = record.in_use == (record.state != State::Terminated)
        && record.mask != 0
        && (record.budget == 0 || record.budget == slice)
        && record.consumed < slice;
    is_accepted.then_some(record)
}

fn read_flag(from: &mut Reader) -> Option<bool> {
    match from.u8()? {
        0 => Some(false),
        1 => Some(true),
        _ => None,
    }
}

fn read_queue(from: &mut Reader) -> Option<Queue> {
    let length = usize::from(from.u8()?);
    let slots: [u8; SLOTS] = *from.array()?;
    let unused = slots.get(length..)?;
    unused.iter().all(|&byte| byte == 0).then_some(Queue { slots, length })
}

fn read_holder(from: &mut Reader, records: &[Record; SLOTS]) -> Option<Option<usize>> {
    let byte = from.u8()?;
    if byte == NONE {
        return Some(None);
    }
    let slot = usize::from(byte);
    let record = records.get(slot)?;
    (record.in_use && record.budget == record.band.slice()).then_some(Some(slot))
}

/// Whether every entry is a Ready slot of its queue's band, and every Ready slot stands in the queues once.
fn all_wait_once(records: &[Record; SLOTS], queues: &[Queue; BANDS]) -> bool {
    let mut counts = [0; SLOTS];
    for (band, queue) in queues.iter().enumerate() {
        let waits_here = |record: &Record| record.state == State::Ready && record.band as usize == band;
        for slot in queue.entries().iter().map(|&slot| usize::from(slot)) {
            if !records.get(slot).is_some_and(waits_here) {
                return false;
            }
            counts[slot] += 1;
        }
    }
    records.iter().zip(counts).all(|(record, count)| record.state != State::Ready || count == 1)
}

pub fn record_bytes(record: &Record) -> [u8; RECORD_BYTES] {
    let mut bytes = [0; RECORD_BYTES];
    let mut to = Writer::new(&mut bytes);
    to.u32(record.tid);
    to.u8(record.band as u8);
    to.u8(record.state as u8);
    to.u64(record.context);
    to.u64(record.cr3);
    to.u64(record.rsp0);
    to.u64(record.mask);
    to.u32(record.budget);
    to.u32(record.consumed);
    to.u8(u8::from(record.in_use));
    bytes
}

/// The places behind the tail are written as 0.
fn write_queue(queue: &Queue, to: &mut Writer) {
    to.u8(queue.length as u8);
    to.put(queue.entries());
    to.put(&[0; SLOTS][queue.length..]);
}
