//! A host in Rust. It makes an image, drives every call and every refusal through `step`, and checks every byte of
//! image and answer, and the bytes past both, against what document 01 says. It is host/c/check.c again, call for call
//! and check for check.
//!
//! What is expected is written here by hand from document 01, a call at a time: which bytes of the image change, and
//! what is answered, as in docs/frames.md. Refusal 2 is left out: it is proved never to come back.
//!
//!   frames      the frames that are passed
//!   expected    the image as it should be
//!   checks      a frame passed, and all that is seen compared
//!
//! It has a `main` of its own in place of the test harness, and its last line is `N checks, M failed`.

mod checks;
mod expected;
mod frames;

use checks::Host;
use expected::{holder_at, queue_at, record_at, ALL_CORES};
use frames::{Frame, Task};
use std::process::ExitCode;
use tilesorrel::*;

// ---- A first image ----

/// It is written whole, or not at all.
fn made_new(host: &mut Host) {
    for wrong in [0, IMAGE_BYTES - 1, IMAGE_BYTES + 1] {
        host.made_new("new_image of a wrong length", wrong, Err(Refusal::WrongLength));
    }
    host.expected.new_scheduler();
    host.made_new("new_image", IMAGE_BYTES, Ok(()));
}

// ---- Tasks, and cores that tick ----

fn made(host: &mut Host) {
    host.check_number("create", "the longest frame's length", CREATE_BYTES, FRAME_BYTES);
    let task = Task::new(7, USER_INTERACTIVE, 0x1);
    host.expected.created(0, &task);
    host.answered("create tid 7 in band 0", &Frame::create(&task), "00ffff 00");
    let task = Task::new(8, REAL_TIME_IO, 0x2);
    host.expected.created(1, &task);
    host.answered("create tid 8 in band 1", &Frame::create(&task), "00ffff 01");
    let task = Task::new(9, BACKGROUND, 0x3);
    host.expected.created(2, &task);
    host.answered("create tid 9 in band 2", &Frame::create(&task), "00ffff 02");
    let task = Task::new(7, USER_INTERACTIVE, 0x4);
    host.expected.created(3, &task);
    host.answered("create another tid 7 in band 0", &Frame::create(&task), "00ffff 03");

    host.expected.field(3, MASK_AT, 8, 0x2);
    host.answered("affinity: slot 3 on core 1 alone", &Frame::affinity(3, 0x2), "00ffff");
    host.answered("affinity: mask 0 is all ones, as it was", &Frame::affinity(2, 0), "00ffff");
}

fn enqueued(host: &mut Host) {
    host.expected.state(0, READY);
    host.expected.queue(0, &[0]);
    host.answered("enqueue slot 0", &Frame::of_slot(ENQUEUE, 0), "00ffff");
    host.expected.state(1, READY);
    host.expected.queue(1, &[1]);
    host.answered("enqueue slot 1", &Frame::of_slot(ENQUEUE, 1), "00ffff");
    host.expected.state(2, READY);
    host.expected.queue(2, &[2]);
    host.answered("enqueue slot 2", &Frame::of_slot(ENQUEUE, 2), "00ffff");
    host.expected.state(3, READY);
    host.expected.queue(0, &[0, 3]);
    host.answered("enqueue slot 3", &Frame::of_slot(ENQUEUE, 3), "00ffff");
}

fn ticks(host: &mut Host) {
    host.expected.queue(0, &[3]);
    host.expected.picked(0, 0);
    host.expected.micros(100);
    host.answered("tick on core 0: slot 0 of band 0", &Frame::of_timer(TICK, 0, 100), "000000 00");
    host.expected.queue(1, &[]);
    host.expected.picked(2, 1);
    host.expected.micros(200);
    let what = "tick on core 2, which slot 3 may not use: slot 1 of band 1";
    host.answered(what, &Frame::of_timer(TICK, 2, 100), "000101 01");
    host.expected.queue(0, &[]);
    host.expected.picked(1, 3);
    host.expected.micros(300);
    host.answered("tick on core 1: slot 3 of band 0", &Frame::of_timer(TICK, 1, 100), "000300 03");
    host.expected.queue(2, &[]);
    host.expected.picked(3, 2);
    host.expected.micros(400);
    host.answered("tick on core 3: slot 2 of band 2", &Frame::of_timer(TICK, 3, 100), "000202 02");
    host.expected.micros(500);
    host.answered("tick on core 4: nobody waits", &Frame::of_timer(TICK, 4, 100), "00ffff ff");
    let what = "tick on core 64: there is none, and no time is counted";
    host.answered(what, &Frame::of_timer(TICK, 64, 100), "00ffff ff");
}

fn slices(host: &mut Host) {
    host.expected.field(0, CONSUMED_AT, 4, 1999);
    host.expected.micros(2499);
    host.answered("tick of 1,999: slot 0 goes on", &Frame::of_timer(TICK, 0, 1999), "00ffff 00");
    host.expected.field(0, CONSUMED_AT, 4, 0);
    host.expected.micros(2500);
    let what = "tick of 1 more: the slice is over, and slot 0 is picked again";
    host.answered(what, &Frame::of_timer(TICK, 0, 1), "000000 00");
}

// ---- Block, wake, yield, handoff, plan ----

fn blocks(host: &mut Host) {
    host.expected.state(1, BLOCKED);
    host.answered("block slot 1: core 2 holds it still", &Frame::of_slot(BLOCK, 1), "00ffff");
    host.expected.state(1, RUNNING);
    let what = "wake slot 1: core 2 holds it, so it runs and does not wait";
    host.answered(what, &Frame::of_slot(WAKE, 1), "00ffff");
    host.expected.state(3, BLOCKED);
    host.answered("block slot 3", &Frame::of_slot(BLOCK, 3), "00ffff");
    host.refused("block slot 3 again", &Frame::of_slot(BLOCK, 3), ALREADY_BLOCKED);
    host.refused("yield on core 1, whose holder is Blocked", &Frame::of_core(YIELD, 1), NO_SUCH_TASK);
    host.expected.holder(1, NONE);
    let what = "handoff on core 1: from slot 3 to idle";
    host.answered(what, &Frame::of_core(HANDOFF, 1), "00ffff 01 03 ff 0000000000000000");
    host.expected.state(3, READY);
    host.expected.queue(0, &[3]);
    host.answered("wake slot 3: no core holds it, so it waits", &Frame::of_slot(WAKE, 3), "00ffff");
}

fn yields(host: &mut Host) {
    let what = "yield on core 0, which slot 3 may not use: slot 0 is picked again";
    host.answered(what, &Frame::of_core(YIELD, 0), "000000 00");
    host.answered("handoff on core 0: a Running holder goes on", &Frame::of_core(HANDOFF, 0), "00ffff 00");
    let what = "yield on core 6, which holds nobody: slot 3 may not use it";
    host.answered(what, &Frame::of_core(YIELD, 6), "00ffff 00");
    host.expected.queue(0, &[]);
    host.expected.picked(1, 3);
    let what = "plan on core 1: from none to slot 3";
    host.answered(what, &Frame::of_timer(PLAN, 1, 0), "000300 01 ff 03 00000000000004c3");
    let task = Task::new(10, REAL_TIME_IO, 0x5);
    host.expected.created(4, &task);
    host.answered("create tid 10 in band 1", &Frame::create(&task), "00ffff 04");
    host.expected.state(4, READY);
    host.expected.queue(1, &[4]);
    let what = "wake slot 4: a new task may be woken as well as enqueued";
    host.answered(what, &Frame::of_slot(WAKE, 4), "00ffff");
    host.expected.state(1, READY);
    host.expected.queue(1, &[1]);
    host.expected.picked(2, 4);
    let what = "yield on core 2: from slot 1 to slot 4";
    host.answered(what, &Frame::of_core(YIELD, 2), "000401 01 01 04 00000000000005c3");
    host.expected.state(4, READY);
    host.expected.queue(1, &[4]);
    host.expected.picked(2, 1);
    host.expected.micros(7500);
    let what = "plan on core 2: slot 4's slice is over, slot 1 comes next";
    host.answered(what, &Frame::of_timer(PLAN, 2, 5000), "000101 01 04 01 00000000000002c3");
    host.answered("plan on core 64: there is none", &Frame::of_timer(PLAN, 64, 5000), "00ffff 00");
}

fn preempted(host: &mut Host) {
    host.expected.state(2, READY);
    host.expected.queue(2, &[2]);
    host.expected.queue(1, &[]);
    host.expected.picked(3, 4);
    let what = "tick of 0 on core 3: band 1 waits, so slot 2 of band 2 makes room";
    host.answered(what, &Frame::of_timer(TICK, 3, 0), "000401 04");
}

/// A task that is queued while a core holds it: Ready, and held still.
fn queued_holder(host: &mut Host) {
    host.expected.state(0, READY);
    host.expected.queue(0, &[0]);
    host.answered("enqueue slot 0, which core 0 holds", &Frame::of_slot(ENQUEUE, 0), "00ffff");
    host.refused("enqueue slot 0 again", &Frame::of_slot(ENQUEUE, 0), ALREADY_READY);
    host.refused("wake slot 0, which is not Blocked", &Frame::of_slot(WAKE, 0), NOT_BLOCKED);
    host.refused("yield on core 0, whose holder is Ready", &Frame::of_core(YIELD, 0), NO_SUCH_TASK);
    host.refused("handoff on core 0, whose holder is Ready", &Frame::of_core(HANDOFF, 0), NOT_BLOCKED);
    host.expected.field(0, CONSUMED_AT, 4, 500);
    host.expected.micros(8000);
    let what = "tick on core 0: a Ready holder is charged, and goes on";
    host.answered(what, &Frame::of_timer(TICK, 0, 500), "00ffff 00");
    host.expected.queue(0, &[]);
    host.expected.picked(5, 0);
    let what = "schedule on core 5: slot 0, so that two cores hold it";
    host.answered(what, &Frame::of_core(SCHEDULE, 5), "000000 00");
    host.answered("schedule on core 64: there is none", &Frame::of_core(SCHEDULE, 64), "00ffff ff");
}

/// Core 7 skips what may not use it, as in K4 of document 01.
fn skipped(host: &mut Host) {
    host.expected.field(1, MASK_AT, 8, 0x1);
    host.answered("affinity: slot 1 on core 0 alone", &Frame::affinity(1, 0x1), "00ffff");
    host.expected.state(1, READY);
    host.expected.queue(1, &[1]);
    host.answered("enqueue slot 1", &Frame::of_slot(ENQUEUE, 1), "00ffff");
    host.expected.state(4, READY);
    host.expected.queue(1, &[1, 4]);
    host.answered("enqueue slot 4", &Frame::of_slot(ENQUEUE, 4), "00ffff");
    let task = Task::new(11, REAL_TIME_IO, 0x6);
    host.expected.created(5, &task);
    host.answered("create tid 11 in band 1", &Frame::create(&task), "00ffff 05");
    host.expected.state(5, READY);
    host.expected.queue(1, &[1, 4, 5]);
    host.answered("enqueue slot 5", &Frame::of_slot(ENQUEUE, 5), "00ffff");
    host.expected.queue(1, &[5, 1]);
    host.expected.picked(7, 4);
    let what = "schedule on core 7: slot 4; slot 1, before it, moves to the tail";
    host.answered(what, &Frame::of_core(SCHEDULE, 7), "000401 04");
}

// ---- Holders that are Blocked, and cores that pick anew ----

fn blocked_holder(host: &mut Host) {
    host.expected.field(3, CONSUMED_AT, 4, 700);
    host.expected.micros(8700);
    host.answered("tick of 700 on core 1: slot 3 goes on", &Frame::of_timer(TICK, 1, 700), "00ffff 03");
    host.expected.state(3, BLOCKED);
    host.expected.field(3, CONSUMED_AT, 4, 0);
    host.answered("block slot 3: nothing is consumed any more", &Frame::of_slot(BLOCK, 3), "00ffff");
    host.expected.queue(1, &[1]);
    host.expected.picked(1, 5);
    host.expected.micros(8800);
    let what = "tick on core 1, whose holder is Blocked: slot 5 of band 1";
    host.answered(what, &Frame::of_timer(TICK, 1, 100), "000501 05");
    host.expected.field(3, MASK_AT, 8, ALL_CORES);
    host.answered("affinity: mask 0 is stored as all ones", &Frame::affinity(3, 0), "00ffff");
    host.expected.state(3, READY);
    host.expected.queue(0, &[3]);
    host.answered("wake slot 3", &Frame::of_slot(WAKE, 3), "00ffff");
    host.expected.state(3, BLOCKED);
    host.expected.queue(0, &[]);
    host.answered("block slot 3, which waits: out of its queue", &Frame::of_slot(BLOCK, 3), "00ffff");
    host.expected.state(3, READY);
    host.expected.queue(0, &[3]);
    host.answered("enqueue slot 3, which is Blocked", &Frame::of_slot(ENQUEUE, 3), "00ffff");
}

fn switched(host: &mut Host) {
    host.expected.queue(0, &[]);
    host.expected.picked(8, 3);
    let what = "yield on core 8: from none to slot 3";
    host.answered(what, &Frame::of_core(YIELD, 8), "000300 01 ff 03 00000000000004c3");
    host.expected.state(3, BLOCKED);
    host.answered("block slot 3", &Frame::of_slot(BLOCK, 3), "00ffff");
    host.expected.queue(2, &[]);
    host.expected.picked(8, 2);
    host.expected.micros(8850);
    let what = "plan on core 8, whose holder is Blocked: from slot 3 to slot 2";
    host.answered(what, &Frame::of_timer(PLAN, 8, 50), "000202 01 03 02 00000000000003c3");
    host.expected.state(5, BLOCKED);
    host.answered("block slot 5", &Frame::of_slot(BLOCK, 5), "00ffff");
    host.expected.state(3, READY);
    host.expected.queue(0, &[3]);
    host.answered("wake slot 3", &Frame::of_slot(WAKE, 3), "00ffff");
    host.expected.queue(0, &[]);
    host.expected.picked(1, 3);
    let what = "handoff on core 1: from slot 5 to slot 3";
    host.answered_switch(what, &Frame::of_core(HANDOFF, 1), USER_INTERACTIVE, 5, 3);
}

fn picked_anew(host: &mut Host) {
    host.expected.state(5, READY);
    host.expected.queue(1, &[1, 5]);
    host.answered("wake slot 5", &Frame::of_slot(WAKE, 5), "00ffff");
    host.expected.queue(1, &[1]);
    host.expected.picked(3, 5);
    let what = "schedule on core 3, which holds slot 4: slot 5";
    host.answered(what, &Frame::of_core(SCHEDULE, 3), "000501 05");
    host.expected.holder(7, NONE);
    let what = "schedule on core 7: nobody may use it, and slot 4 is held no more";
    host.answered(what, &Frame::of_core(SCHEDULE, 7), "00ffff ff");
    host.expected.holder(2, NONE);
    host.expected.micros(13850);
    let what = "tick on core 2: a Ready holder's slice is over, and it waits once";
    host.answered(what, &Frame::of_timer(TICK, 2, 5000), "00ffff ff");
    host.expected.field(0, CONSUMED_AT, 4, 1);
    host.expected.micros(13851);
    host.answered("tick of 1 on core 0", &Frame::of_timer(TICK, 0, 1), "00ffff 00");
    host.expected.field(0, CONSUMED_AT, 4, 0);
    host.expected.micros(4_294_981_146);
    let what = "tick of 4,294,967,295: the sum passes 32 bits, and the slice is over";
    host.answered(what, &Frame::of_timer(TICK, 0, u32::MAX), "000000 00");
}

// ---- Queries ----

fn queries(host: &mut Host) {
    host.answered("slot 1 may use core 0", &Frame::of_slot_and_core(1, 0), "00ffff 01");
    host.answered("slot 1 may not use core 1", &Frame::of_slot_and_core(1, 1), "00ffff 00");
    host.answered("core 64 is taken as core 0", &Frame::of_slot_and_core(1, 64), "00ffff 01");
    host.answered("slot 64 may use no core", &Frame::of_slot_and_core(64, 0), "00ffff 00");
    host.answered("tid 7 is slot 0, the lowest", &Frame::of_tid(7), "00ffff 00");
    host.answered("tid 12 is nobody's", &Frame::of_tid(12), "00ffff ff");
    host.answered_record("slot 3's record", &Frame::of_slot(TASK, 3), 3);
    host.answered_record("a free slot's record", &Frame::of_slot(TASK, 63), 63);
    host.answered("slot 64 has no record", &Frame::of_slot(TASK, 64), "00ffff 00");
    host.answered_record("core 1's task", &Frame::of_core(CURRENT_TASK_ON_CPU, 1), 3);
    host.answered("core 4 has no task", &Frame::of_core(CURRENT_TASK_ON_CPU, 4), "00ffff 00");
    host.answered("core 64 has no task", &Frame::of_core(CURRENT_TASK_ON_CPU, 64), "00ffff 00");
    let micros = Frame::of_nothing(SYSTEM_MICROSECONDS);
    host.answered("4,294,981,146 microseconds have passed", &micros, "00ffff 000000010000361a");
    host.answered("slot 0 is held by cores 0 and 5: the lower", &Frame::of_slot(HOLDER, 0), "00ffff 00");
    host.answered("slot 4, Running, is held by no core", &Frame::of_slot(HOLDER, 4), "00ffff ff");
    host.answered("slot 64 is held by no core", &Frame::of_slot(HOLDER, 64), "00ffff ff");
}

// ---- Terminate ----

fn terminated(host: &mut Host) {
    host.expected.terminated(0);
    host.expected.holder(0, NONE);
    host.expected.holder(5, NONE);
    host.answered("terminate slot 0: no core holds it any more", &Frame::of_slot(TERMINATE, 0), "00ffff");
    host.expected.state(5, READY);
    host.expected.queue(1, &[1, 5]);
    host.answered("enqueue slot 5, which core 3 holds", &Frame::of_slot(ENQUEUE, 5), "00ffff");
    host.expected.terminated(5);
    host.expected.queue(1, &[1]);
    host.expected.holder(3, NONE);
    let what = "terminate slot 5: out of its queue, and held no more";
    host.answered(what, &Frame::of_slot(TERMINATE, 5), "00ffff");
    host.answered("terminate slot 63, which is free", &Frame::of_slot(TERMINATE, 63), "00ffff");
    host.expected.field(63, MASK_AT, 8, 0x5);
    host.answered("affinity of slot 63, which is free", &Frame::affinity(63, 0x5), "00ffff");
    host.answered("tid 7 is slot 3 now", &Frame::of_tid(7), "00ffff 03");
}

// ---- Refusals ----

fn no_such_task(host: &mut Host) {
    host.refused("block slot 0, which is free", &Frame::of_slot(BLOCK, 0), NO_SUCH_TASK);
    host.refused("wake slot 0, which is free", &Frame::of_slot(WAKE, 0), NO_SUCH_TASK);
    host.refused("enqueue slot 0, which is free", &Frame::of_slot(ENQUEUE, 0), NO_SUCH_TASK);
    host.refused("handoff on core 4, which holds nobody", &Frame::of_core(HANDOFF, 4), NO_SUCH_TASK);
    for above in [64, 255, 256, u64::MAX] {
        host.refused("affinity of a slot above 63", &Frame::affinity(above, 1), NO_SUCH_TASK);
        host.refused("terminate of a slot above 63", &Frame::of_slot(TERMINATE, above), NO_SUCH_TASK);
        host.refused("block of a slot above 63", &Frame::of_slot(BLOCK, above), NO_SUCH_TASK);
        host.refused("wake of a slot above 63", &Frame::of_slot(WAKE, above), NO_SUCH_TASK);
        host.refused("enqueue of a slot above 63", &Frame::of_slot(ENQUEUE, above), NO_SUCH_TASK);
        host.refused("yield on a core above 63", &Frame::of_core(YIELD, above), NO_SUCH_TASK);
        host.refused("handoff on a core above 63", &Frame::of_core(HANDOFF, above), NO_SUCH_TASK);
    }
}

/// The free slots are filled from the lowest on; then there is none.
fn filled(host: &mut Host) {
    let in_use = 1..=4;
    for slot in (0..SLOTS as u8).filter(|slot| !in_use.contains(slot)) {
        let task = Task::new(1000 + u32::from(slot), slot % BANDS, slot.into());
        host.expected.created(slot, &task);
        host.answered("create in the lowest free slot", &Frame::create(&task), &format!("00ffff {slot:02x}"));
    }
    let task = Task::new(2000, BACKGROUND, 0);
    host.refused("create with 64 tasks", &Frame::create(&task), TABLE_FULL);
}

fn wrong_lengths(host: &mut Host) {
    let tick = Frame::of_timer(TICK, 0, 500);
    host.wrong_length("an image of 3,274 bytes", &tick, IMAGE_BYTES - 1, ANSWER_BYTES);
    host.wrong_length("an image of 3,276 bytes", &tick, IMAGE_BYTES + 1, ANSWER_BYTES);
    host.wrong_length("an image of no bytes", &tick, 0, ANSWER_BYTES);
    host.wrong_length("a buffer of 50 bytes", &tick, IMAGE_BYTES, ANSWER_BYTES - 1);
    host.wrong_length("a buffer of no bytes", &tick, IMAGE_BYTES, 0);
}

/// The image's conditions, broken one at a time; each is mended before the next.
fn not_accepted(host: &mut Host) {
    let micros = Frame::of_nothing(SYSTEM_MICROSECONDS);
    let mut damaged = |what, at, bytes, number| host.damaged(what, &micros, at, bytes, number);
    damaged("a band of 3", record_at(6) + BAND_AT, 1, 3);
    damaged("a state of 4", record_at(6) + STATE_AT, 1, 4);
    damaged("in use 2", record_at(6) + IN_USE_AT, 1, 2);
    damaged("a Blocked slot that is not in use", record_at(6) + IN_USE_AT, 1, 0);
    damaged("a Terminated slot that is in use", record_at(6) + STATE_AT, 1, TERMINATED.into());
    damaged("a mask of 0", record_at(6) + MASK_AT, 8, 0);
    damaged("a queue's length of 65", queue_at(2), 1, 65);
    damaged("a slot behind a queue's length", queue_at(0) + 1, 1, 1);
    damaged("a Ready slot's entry lost", queue_at(1), 2, 0x0000);
    damaged("a Ready slot's entry twice", queue_at(1), 3, 0x020101);
    damaged("an entry of another band", queue_at(1) + 1, 1, 2);
    damaged("an entry that is Blocked", record_at(1) + STATE_AT, 1, BLOCKED.into());
    damaged("a Ready slot without an entry", record_at(6) + STATE_AT, 1, READY.into());
    damaged("a holder of 64", holder_at(9), 1, 64);
    damaged("a holder whose budget is 0", holder_at(9), 1, 6);
    damaged("a budget of 1", record_at(6) + BUDGET_AT, 4, 1);
    damaged("a slice consumed whole", record_at(3) + CONSUMED_AT, 4, 2000);
}

fn no_frames(host: &mut Host) {
    host.not_called("a frame of no bytes", &Frame::of_bytes(""), Refusal::NoFrame);
    host.not_called("call 11", &Frame::of_bytes("11"), Refusal::NoFrame);
    host.not_called("an enqueue of 8 bytes", &Frame::of_bytes("05 00000000000000"), Refusal::NoFrame);
    host.not_called("an enqueue of 10 bytes", &Frame::of_bytes("05 0000000000000000 00"), Refusal::NoFrame);
    host.not_called("a create in band 3", &Frame::create(&Task::new(1, BANDS, 0)), Refusal::NoFrame);
}

/// Lengths are looked at before the image, and the image before the frame.
fn in_order(host: &mut Host) {
    let none = Frame::of_bytes("11");
    host.damaged("no frame on a damaged image", &none, record_at(6) + BAND_AT, 1, 3);
    host.wrong_length("no frame with a short buffer", &none, IMAGE_BYTES, ANSWER_BYTES - 1);
    host.put_both(record_at(6) + BAND_AT, 1, 3);
    host.wrong_length("a damaged image and a short buffer", &none, IMAGE_BYTES, ANSWER_BYTES - 1);
}

fn main() -> ExitCode {
    let mut host = Host::new();
    made_new(&mut host);
    made(&mut host);
    enqueued(&mut host);
    ticks(&mut host);
    slices(&mut host);
    blocks(&mut host);
    yields(&mut host);
    preempted(&mut host);
    queued_holder(&mut host);
    skipped(&mut host);
    blocked_holder(&mut host);
    switched(&mut host);
    picked_anew(&mut host);
    queries(&mut host);
    terminated(&mut host);
    no_such_task(&mut host);
    filled(&mut host);
    wrong_lengths(&mut host);
    not_accepted(&mut host);
    no_frames(&mut host);
    in_order(&mut host);
    host.all_checked()
}
