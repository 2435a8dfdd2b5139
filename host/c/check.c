/*
 * A host in C. It makes an image, drives every call and every refusal through `step`, and checks every byte of image
 * and answer, and the bytes past both, against what document 01 says. It is C99, and C++ too.
 *
 * What is expected is written here by hand from document 01, a call at a time: which bytes of the image change, and
 * what is answered, as in docs/frames.md. Refusal 2 is left out: it is proved never to come back.
 */
#include "checks.h"
#include "expected.h"
#include "frames.h"
#include "tilesorrel.h"

/* ---- A first image ---- */

/* It is written whole, or not at all. */
static void made_new(void)
{
    static const size_t wrong[] = {0, TILESORREL_IMAGE_BYTES - 1, TILESORREL_IMAGE_BYTES + 1};
    size_t i;
    memset(image, 0xa5, sizeof image);
    memset(expected, 0xa5, sizeof expected);
    for (i = 0; i < sizeof wrong / sizeof wrong[0]; i += 1) {
        check_number("new_image of a wrong length", "what is returned", new_image(image, wrong[i]),
                     TILESORREL_REFUSED + TILESORREL_WRONG_LENGTH);
        check_bytes("new_image of a wrong length", "the image", image, expected, sizeof image);
    }
    expect_new();
    check_number("new_image", "what is returned", new_image(image, TILESORREL_IMAGE_BYTES), 0);
    check_bytes("new_image", "the image", image, expected, sizeof image);
}

/* ---- Tasks, and cores that tick ---- */

static void made(void)
{
    check_number("create", "the longest frame's length", TILESORREL_CREATE_BYTES, TILESORREL_FRAME_BYTES);
    create(7, TILESORREL_USER_INTERACTIVE, 0x1);
    expect_created(0);
    answered("create tid 7 in band 0", "00ffff 00");
    create(8, TILESORREL_REAL_TIME_IO, 0x2);
    expect_created(1);
    answered("create tid 8 in band 1", "00ffff 01");
    create(9, TILESORREL_BACKGROUND, 0x3);
    expect_created(2);
    answered("create tid 9 in band 2", "00ffff 02");
    create(7, TILESORREL_USER_INTERACTIVE, 0x4);
    expect_created(3);
    answered("create another tid 7 in band 0", "00ffff 03");

    affinity(3, 0x2);
    expect_field(3, TILESORREL_MASK_AT, 8, 0x2);
    answered("affinity: slot 3 on core 1 alone", "00ffff");
    affinity(2, 0);
    answered("affinity: mask 0 is all ones, as it was", "00ffff");
}

static void enqueued(void)
{
    of_slot(TILESORREL_ENQUEUE, 0);
    expect_state(0, TILESORREL_READY);
    expect_queue(0, "0");
    answered("enqueue slot 0", "00ffff");
    of_slot(TILESORREL_ENQUEUE, 1);
    expect_state(1, TILESORREL_READY);
    expect_queue(1, "1");
    answered("enqueue slot 1", "00ffff");
    of_slot(TILESORREL_ENQUEUE, 2);
    expect_state(2, TILESORREL_READY);
    expect_queue(2, "2");
    answered("enqueue slot 2", "00ffff");
    of_slot(TILESORREL_ENQUEUE, 3);
    expect_state(3, TILESORREL_READY);
    expect_queue(0, "03");
    answered("enqueue slot 3", "00ffff");
}

static void ticks(void)
{
    of_timer(TILESORREL_TICK, 0, 100);
    expect_queue(0, "3");
    expect_picked(0, 0);
    expect_micros(100);
    answered("tick on core 0: slot 0 of band 0", "000000 00");
    of_timer(TILESORREL_TICK, 2, 100);
    expect_queue(1, "");
    expect_picked(2, 1);
    expect_micros(200);
    answered("tick on core 2, which slot 3 may not use: slot 1 of band 1", "000101 01");
    of_timer(TILESORREL_TICK, 1, 100);
    expect_queue(0, "");
    expect_picked(1, 3);
    expect_micros(300);
    answered("tick on core 1: slot 3 of band 0", "000300 03");
    of_timer(TILESORREL_TICK, 3, 100);
    expect_queue(2, "");
    expect_picked(3, 2);
    expect_micros(400);
    answered("tick on core 3: slot 2 of band 2", "000202 02");
    of_timer(TILESORREL_TICK, 4, 100);
    expect_micros(500);
    answered("tick on core 4: nobody waits", "00ffff ff");
    of_timer(TILESORREL_TICK, 64, 100);
    answered("tick on core 64: there is none, and no time is counted", "00ffff ff");
}

static void slices(void)
{
    of_timer(TILESORREL_TICK, 0, 1999);
    expect_field(0, TILESORREL_CONSUMED_AT, 4, 1999);
    expect_micros(2499);
    answered("tick of 1,999: slot 0 goes on", "00ffff 00");
    of_timer(TILESORREL_TICK, 0, 1);
    expect_field(0, TILESORREL_CONSUMED_AT, 4, 0);
    expect_micros(2500);
    answered("tick of 1 more: the slice is over, and slot 0 is picked again", "000000 00");
}

/* ---- Block, wake, yield, handoff, plan ---- */

static void blocks(void)
{
    of_slot(TILESORREL_BLOCK, 1);
    expect_state(1, TILESORREL_BLOCKED);
    answered("block slot 1: core 2 holds it still", "00ffff");
    of_slot(TILESORREL_WAKE, 1);
    expect_state(1, TILESORREL_RUNNING);
    answered("wake slot 1: core 2 holds it, so it runs and does not wait", "00ffff");
    of_slot(TILESORREL_BLOCK, 3);
    expect_state(3, TILESORREL_BLOCKED);
    answered("block slot 3", "00ffff");
    of_slot(TILESORREL_BLOCK, 3);
    refused("block slot 3 again", TILESORREL_ALREADY_BLOCKED);
    of_core(TILESORREL_YIELD, 1);
    refused("yield on core 1, whose holder is Blocked", TILESORREL_NO_SUCH_TASK);
    of_core(TILESORREL_HANDOFF, 1);
    expect_holder(1, TILESORREL_NONE);
    answered("handoff on core 1: from slot 3 to idle", "00ffff 01 03 ff 0000000000000000");
    of_slot(TILESORREL_WAKE, 3);
    expect_state(3, TILESORREL_READY);
    expect_queue(0, "3");
    answered("wake slot 3: no core holds it, so it waits", "00ffff");
}

static void yields(void)
{
    of_core(TILESORREL_YIELD, 0);
    answered("yield on core 0, which slot 3 may not use: slot 0 is picked again", "000000 00");
    of_core(TILESORREL_HANDOFF, 0);
    answered("handoff on core 0: a Running holder goes on", "00ffff 00");
    of_core(TILESORREL_YIELD, 6);
    answered("yield on core 6, which holds nobody: slot 3 may not use it", "00ffff 00");
    of_timer(TILESORREL_PLAN, 1, 0);
    expect_queue(0, "");
    expect_picked(1, 3);
    answered("plan on core 1: from none to slot 3", "000300 01 ff 03 00000000000004c3");
    create(10, TILESORREL_REAL_TIME_IO, 0x5);
    expect_created(4);
    answered("create tid 10 in band 1", "00ffff 04");
    of_slot(TILESORREL_WAKE, 4);
    expect_state(4, TILESORREL_READY);
    expect_queue(1, "4");
    answered("wake slot 4: a new task may be woken as well as enqueued", "00ffff");
    of_core(TILESORREL_YIELD, 2);
    expect_state(1, TILESORREL_READY);
    expect_queue(1, "1");
    expect_picked(2, 4);
    answered("yield on core 2: from slot 1 to slot 4", "000401 01 01 04 00000000000005c3");
    of_timer(TILESORREL_PLAN, 2, 5000);
    expect_state(4, TILESORREL_READY);
    expect_queue(1, "4");
    expect_picked(2, 1);
    expect_micros(7500);
    answered("plan on core 2: slot 4's slice is over, slot 1 comes next", "000101 01 04 01 00000000000002c3");
    of_timer(TILESORREL_PLAN, 64, 5000);
    answered("plan on core 64: there is none", "00ffff 00");
}

static void preempted(void)
{
    of_timer(TILESORREL_TICK, 3, 0);
    expect_state(2, TILESORREL_READY);
    expect_queue(2, "2");
    expect_queue(1, "");
    expect_picked(3, 4);
    answered("tick of 0 on core 3: band 1 waits, so slot 2 of band 2 makes room", "000401 04");
}

/* A task that is queued while a core holds it: Ready, and held still. */
static void queued_holder(void)
{
    of_slot(TILESORREL_ENQUEUE, 0);
    expect_state(0, TILESORREL_READY);
    expect_queue(0, "0");
    answered("enqueue slot 0, which core 0 holds", "00ffff");
    of_slot(TILESORREL_ENQUEUE, 0);
    refused("enqueue slot 0 again", TILESORREL_ALREADY_READY);
    of_slot(TILESORREL_WAKE, 0);
    refused("wake slot 0, which is not Blocked", TILESORREL_NOT_BLOCKED);
    of_core(TILESORREL_YIELD, 0);
    refused("yield on core 0, whose holder is Ready", TILESORREL_NO_SUCH_TASK);
    of_core(TILESORREL_HANDOFF, 0);
    refused("handoff on core 0, whose holder is Ready", TILESORREL_NOT_BLOCKED);
    of_timer(TILESORREL_TICK, 0, 500);
    expect_field(0, TILESORREL_CONSUMED_AT, 4, 500);
    expect_micros(8000);
    answered("tick on core 0: a Ready holder is charged, and goes on", "00ffff 00");
    of_core(TILESORREL_SCHEDULE, 5);
    expect_queue(0, "");
    expect_picked(5, 0);
    answered("schedule on core 5: slot 0, so that two cores hold it", "000000 00");
    of_core(TILESORREL_SCHEDULE, 64);
    answered("schedule on core 64: there is none", "00ffff ff");
}

/* Core 7 skips what may not use it, as in K4 of document 01. */
static void skipped(void)
{
    affinity(1, 0x1);
    expect_field(1, TILESORREL_MASK_AT, 8, 0x1);
    answered("affinity: slot 1 on core 0 alone", "00ffff");
    of_slot(TILESORREL_ENQUEUE, 1);
    expect_state(1, TILESORREL_READY);
    expect_queue(1, "1");
    answered("enqueue slot 1", "00ffff");
    of_slot(TILESORREL_ENQUEUE, 4);
    expect_state(4, TILESORREL_READY);
    expect_queue(1, "14");
    answered("enqueue slot 4", "00ffff");
    create(11, TILESORREL_REAL_TIME_IO, 0x6);
    expect_created(5);
    answered("create tid 11 in band 1", "00ffff 05");
    of_slot(TILESORREL_ENQUEUE, 5);
    expect_state(5, TILESORREL_READY);
    expect_queue(1, "145");
    answered("enqueue slot 5", "00ffff");
    of_core(TILESORREL_SCHEDULE, 7);
    expect_queue(1, "51");
    expect_picked(7, 4);
    answered("schedule on core 7: slot 4; slot 1, before it, moves to the tail", "000401 04");
}

/* ---- Holders that are Blocked, and cores that pick anew ---- */

static void blocked_holder(void)
{
    of_timer(TILESORREL_TICK, 1, 700);
    expect_field(3, TILESORREL_CONSUMED_AT, 4, 700);
    expect_micros(8700);
    answered("tick of 700 on core 1: slot 3 goes on", "00ffff 03");
    of_slot(TILESORREL_BLOCK, 3);
    expect_state(3, TILESORREL_BLOCKED);
    expect_field(3, TILESORREL_CONSUMED_AT, 4, 0);
    answered("block slot 3: nothing is consumed any more", "00ffff");
    of_timer(TILESORREL_TICK, 1, 100);
    expect_queue(1, "1");
    expect_picked(1, 5);
    expect_micros(8800);
    answered("tick on core 1, whose holder is Blocked: slot 5 of band 1", "000501 05");
    affinity(3, 0);
    expect_field(3, TILESORREL_MASK_AT, 8, ALL_CORES);
    answered("affinity: mask 0 is stored as all ones", "00ffff");
    of_slot(TILESORREL_WAKE, 3);
    expect_state(3, TILESORREL_READY);
    expect_queue(0, "3");
    answered("wake slot 3", "00ffff");
    of_slot(TILESORREL_BLOCK, 3);
    expect_state(3, TILESORREL_BLOCKED);
    expect_queue(0, "");
    answered("block slot 3, which waits: out of its queue", "00ffff");
    of_slot(TILESORREL_ENQUEUE, 3);
    expect_state(3, TILESORREL_READY);
    expect_queue(0, "3");
    answered("enqueue slot 3, which is Blocked", "00ffff");
}

static void switched(void)
{
    of_core(TILESORREL_YIELD, 8);
    expect_queue(0, "");
    expect_picked(8, 3);
    answered("yield on core 8: from none to slot 3", "000300 01 ff 03 00000000000004c3");
    of_slot(TILESORREL_BLOCK, 3);
    expect_state(3, TILESORREL_BLOCKED);
    answered("block slot 3", "00ffff");
    of_timer(TILESORREL_PLAN, 8, 50);
    expect_queue(2, "");
    expect_picked(8, 2);
    expect_micros(8850);
    answered("plan on core 8, whose holder is Blocked: from slot 3 to slot 2", "000202 01 03 02 00000000000003c3");
    of_slot(TILESORREL_BLOCK, 5);
    expect_state(5, TILESORREL_BLOCKED);
    answered("block slot 5", "00ffff");
    of_slot(TILESORREL_WAKE, 3);
    expect_state(3, TILESORREL_READY);
    expect_queue(0, "3");
    answered("wake slot 3", "00ffff");
    of_core(TILESORREL_HANDOFF, 1);
    expect_queue(0, "");
    expect_picked(1, 3);
    answered_switch("handoff on core 1: from slot 5 to slot 3", TILESORREL_USER_INTERACTIVE, 5, 3);
}

static void picked_anew(void)
{
    of_slot(TILESORREL_WAKE, 5);
    expect_state(5, TILESORREL_READY);
    expect_queue(1, "15");
    answered("wake slot 5", "00ffff");
    of_core(TILESORREL_SCHEDULE, 3);
    expect_queue(1, "1");
    expect_picked(3, 5);
    answered("schedule on core 3, which holds slot 4: slot 5", "000501 05");
    of_core(TILESORREL_SCHEDULE, 7);
    expect_holder(7, TILESORREL_NONE);
    answered("schedule on core 7: nobody may use it, and slot 4 is held no more", "00ffff ff");
    of_timer(TILESORREL_TICK, 2, 5000);
    expect_holder(2, TILESORREL_NONE);
    expect_micros(13850);
    answered("tick on core 2: a Ready holder's slice is over, and it waits once", "00ffff ff");
    of_timer(TILESORREL_TICK, 0, 1);
    expect_field(0, TILESORREL_CONSUMED_AT, 4, 1);
    expect_micros(13851);
    answered("tick of 1 on core 0", "00ffff 00");
    of_timer(TILESORREL_TICK, 0, UINT32_MAX);
    expect_field(0, TILESORREL_CONSUMED_AT, 4, 0);
    expect_micros(4294981146);
    answered("tick of 4,294,967,295: the sum passes 32 bits, and the slice is over", "000000 00");
}

/* ---- Queries ---- */

static void queries(void)
{
    of_slot_and_core(1, 0);
    answered("slot 1 may use core 0", "00ffff 01");
    of_slot_and_core(1, 1);
    answered("slot 1 may not use core 1", "00ffff 00");
    of_slot_and_core(1, 64);
    answered("core 64 is taken as core 0", "00ffff 01");
    of_slot_and_core(64, 0);
    answered("slot 64 may use no core", "00ffff 00");
    of_tid(7);
    answered("tid 7 is slot 0, the lowest", "00ffff 00");
    of_tid(12);
    answered("tid 12 is nobody's", "00ffff ff");
    of_slot(TILESORREL_TASK, 3);
    answered_record("slot 3's record", 3);
    of_slot(TILESORREL_TASK, 63);
    answered_record("a free slot's record", 63);
    of_slot(TILESORREL_TASK, 64);
    answered("slot 64 has no record", "00ffff 00");
    of_core(TILESORREL_CURRENT_TASK_ON_CPU, 1);
    answered_record("core 1's task", 3);
    of_core(TILESORREL_CURRENT_TASK_ON_CPU, 4);
    answered("core 4 has no task", "00ffff 00");
    of_core(TILESORREL_CURRENT_TASK_ON_CPU, 64);
    answered("core 64 has no task", "00ffff 00");
    of_nothing(TILESORREL_SYSTEM_MICROSECONDS);
    answered("4,294,981,146 microseconds have passed", "00ffff 000000010000361a");
    of_slot(TILESORREL_HOLDER, 0);
    answered("slot 0 is held by cores 0 and 5: the lower", "00ffff 00");
    of_slot(TILESORREL_HOLDER, 4);
    answered("slot 4, Running, is held by no core", "00ffff ff");
    of_slot(TILESORREL_HOLDER, 64);
    answered("slot 64 is held by no core", "00ffff ff");
}

/* ---- Terminate ---- */

static void terminated(void)
{
    of_slot(TILESORREL_TERMINATE, 0);
    expect_terminated(0);
    expect_holder(0, TILESORREL_NONE);
    expect_holder(5, TILESORREL_NONE);
    answered("terminate slot 0: no core holds it any more", "00ffff");
    of_slot(TILESORREL_ENQUEUE, 5);
    expect_state(5, TILESORREL_READY);
    expect_queue(1, "15");
    answered("enqueue slot 5, which core 3 holds", "00ffff");
    of_slot(TILESORREL_TERMINATE, 5);
    expect_terminated(5);
    expect_queue(1, "1");
    expect_holder(3, TILESORREL_NONE);
    answered("terminate slot 5: out of its queue, and held no more", "00ffff");
    of_slot(TILESORREL_TERMINATE, 63);
    answered("terminate slot 63, which is free", "00ffff");
    affinity(63, 0x5);
    expect_field(63, TILESORREL_MASK_AT, 8, 0x5);
    answered("affinity of slot 63, which is free", "00ffff");
    of_tid(7);
    answered("tid 7 is slot 3 now", "00ffff 03");
}

/* ---- Refusals ---- */

static void no_such_task(void)
{
    static const uint64_t above[] = {64, 255, 256, UINT64_MAX};
    size_t i;
    of_slot(TILESORREL_BLOCK, 0);
    refused("block slot 0, which is free", TILESORREL_NO_SUCH_TASK);
    of_slot(TILESORREL_WAKE, 0);
    refused("wake slot 0, which is free", TILESORREL_NO_SUCH_TASK);
    of_slot(TILESORREL_ENQUEUE, 0);
    refused("enqueue slot 0, which is free", TILESORREL_NO_SUCH_TASK);
    of_core(TILESORREL_HANDOFF, 4);
    refused("handoff on core 4, which holds nobody", TILESORREL_NO_SUCH_TASK);
    for (i = 0; i < sizeof above / sizeof above[0]; i += 1) {
        affinity(above[i], 1);
        refused("affinity of a slot above 63", TILESORREL_NO_SUCH_TASK);
        of_slot(TILESORREL_TERMINATE, above[i]);
        refused("terminate of a slot above 63", TILESORREL_NO_SUCH_TASK);
        of_slot(TILESORREL_BLOCK, above[i]);
        refused("block of a slot above 63", TILESORREL_NO_SUCH_TASK);
        of_slot(TILESORREL_WAKE, above[i]);
        refused("wake of a slot above 63", TILESORREL_NO_SUCH_TASK);
        of_slot(TILESORREL_ENQUEUE, above[i]);
        refused("enqueue of a slot above 63", TILESORREL_NO_SUCH_TASK);
        of_core(TILESORREL_YIELD, above[i]);
        refused("yield on a core above 63", TILESORREL_NO_SUCH_TASK);
        of_core(TILESORREL_HANDOFF, above[i]);
        refused("handoff on a core above 63", TILESORREL_NO_SUCH_TASK);
    }
}

/* The free slots are filled from the lowest on; then there is none. */
static void filled(void)
{
    static const char digits[] = "0123456789abcdef";
    char answer[] = "00ffff 00";
    unsigned slot;
    for (slot = 0; slot < TILESORREL_SLOTS; slot += 1) {
        if (slot >= 1 && slot <= 4) {
            continue; /* in use */
        }
        answer[7] = digits[slot / 16];
        answer[8] = digits[slot % 16];
        create(1000 + slot, slot % TILESORREL_BANDS, slot);
        expect_created(slot);
        answered("create in the lowest free slot", answer);
    }
    create(2000, TILESORREL_BACKGROUND, 0);
    refused("create with 64 tasks", TILESORREL_TABLE_FULL);
}

static void wrong_lengths(void)
{
    of_timer(TILESORREL_TICK, 0, 500);
    not_called("an image of 3,274 bytes", TILESORREL_WRONG_LENGTH, TILESORREL_IMAGE_BYTES - 1, TILESORREL_ANSWER_BYTES);
    not_called("an image of 3,276 bytes", TILESORREL_WRONG_LENGTH, TILESORREL_IMAGE_BYTES + 1, TILESORREL_ANSWER_BYTES);
    not_called("an image of no bytes", TILESORREL_WRONG_LENGTH, 0, TILESORREL_ANSWER_BYTES);
    not_called("a buffer of 50 bytes", TILESORREL_WRONG_LENGTH, TILESORREL_IMAGE_BYTES, TILESORREL_ANSWER_BYTES - 1);
    not_called("a buffer of no bytes", TILESORREL_WRONG_LENGTH, TILESORREL_IMAGE_BYTES, 0);
}

/* The image's conditions, broken one at a time; each is mended before the next. */
static void not_accepted(void)
{
    of_nothing(TILESORREL_SYSTEM_MICROSECONDS);
    damaged("a band of 3", record(6) + TILESORREL_BAND_AT, 1, 3);
    damaged("a state of 4", record(6) + TILESORREL_STATE_AT, 1, 4);
    damaged("in use 2", record(6) + TILESORREL_IN_USE_AT, 1, 2);
    damaged("a Blocked slot that is not in use", record(6) + TILESORREL_IN_USE_AT, 1, 0);
    damaged("a Terminated slot that is in use", record(6) + TILESORREL_STATE_AT, 1, TILESORREL_TERMINATED);
    damaged("a mask of 0", record(6) + TILESORREL_MASK_AT, 8, 0);
    damaged("a queue's length of 65", queue(2), 1, 65);
    damaged("a slot behind a queue's length", queue(0) + 1, 1, 1);
    damaged("a Ready slot's entry lost", queue(1), 2, 0x0000);
    damaged("a Ready slot's entry twice", queue(1), 3, 0x020101);
    damaged("an entry of another band", queue(1) + 1, 1, 2);
    damaged("an entry that is Blocked", record(1) + TILESORREL_STATE_AT, 1, TILESORREL_BLOCKED);
    damaged("a Ready slot without an entry", record(6) + TILESORREL_STATE_AT, 1, TILESORREL_READY);
    damaged("a holder of 64", holder(9), 1, 64);
    damaged("a holder whose budget is 0", holder(9), 1, 6);
    damaged("a budget of 1", record(6) + TILESORREL_BUDGET_AT, 4, 1);
    damaged("a slice consumed whole", record(3) + TILESORREL_CONSUMED_AT, 4, 2000);
}

static void no_frames(void)
{
    of_bytes("");
    not_called("a frame of no bytes", TILESORREL_NO_FRAME, TILESORREL_IMAGE_BYTES, TILESORREL_ANSWER_BYTES);
    of_bytes("11");
    not_called("call 11", TILESORREL_NO_FRAME, TILESORREL_IMAGE_BYTES, TILESORREL_ANSWER_BYTES);
    of_bytes("05 00000000000000");
    not_called("an enqueue of 8 bytes", TILESORREL_NO_FRAME, TILESORREL_IMAGE_BYTES, TILESORREL_ANSWER_BYTES);
    of_bytes("05 0000000000000000 00");
    not_called("an enqueue of 10 bytes", TILESORREL_NO_FRAME, TILESORREL_IMAGE_BYTES, TILESORREL_ANSWER_BYTES);
    create(1, TILESORREL_BANDS, 0);
    not_called("a create in band 3", TILESORREL_NO_FRAME, TILESORREL_IMAGE_BYTES, TILESORREL_ANSWER_BYTES);
}

/* Lengths are looked at before the image, and the image before the frame. */
static void in_order(void)
{
    of_bytes("11");
    damaged("no frame on a damaged image", record(6) + TILESORREL_BAND_AT, 1, 3);
    not_called("no frame with a short buffer", TILESORREL_WRONG_LENGTH, TILESORREL_IMAGE_BYTES,
               TILESORREL_ANSWER_BYTES - 1);
    put_both(record(6) + TILESORREL_BAND_AT, 1, 3);
    not_called("a damaged image and a short buffer", TILESORREL_WRONG_LENGTH, TILESORREL_IMAGE_BYTES,
               TILESORREL_ANSWER_BYTES - 1);
}

int main(void)
{
    made_new();
    made();
    enqueued();
    ticks();
    slices();
    blocks();
    yields();
    preempted();
    queued_holder();
    skipped();
    blocked_holder();
    switched();
    picked_anew();
    queries();
    terminated();
    no_such_task();
    filled();
    wrong_lengths();
    not_accepted();
    no_frames();
    in_order();
    return all_checked();
}
