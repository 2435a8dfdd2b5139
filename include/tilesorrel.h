/*
 * Tilesorrel, the task scheduler of a lace machine's controller: what a kernel in C or C++ calls.
 *
 * The host keeps the scheduler's state as an image of 3,275 bytes, and passes it with every call:
 *
 *     static uint8_t image[TILESORREL_IMAGE_BYTES];
 *     new_image(image, sizeof image);                          // once
 *
 *     uint8_t frame[TILESORREL_TICK_BYTES];                    // core 3's timer: 500 microseconds have passed
 *     uint8_t answer[TILESORREL_ANSWER_BYTES];
 *     frame[0] = TILESORREL_TICK;
 *     tilesorrel_put(frame + 1, 8, 3);
 *     tilesorrel_put(frame + 9, 4, 500);
 *     if (step(image, sizeof image, frame, sizeof frame, answer, sizeof answer) < TILESORREL_REFUSED) {
 *         if (answer[TILESORREL_VALUE_AT] == TILESORREL_NONE) {
 *             idle();                                          // nobody is to run on core 3
 *         } else {
 *             run(answer[TILESORREL_VALUE_AT]);                // the slot that core 3 is to run
 *         }
 *     }
 *
 * Calls on one image must come one after another: take a lock around each. A call uses the SSE2 registers, may use the
 * red zone, and uses up to TILESORREL_STACK_BYTES of stack. 'tools/make archive' proves the library and makes
 * target/staticlib/libtilesorrel.a, which needs nothing but memcpy and memset. docs/host.md says how to build and link
 * it, what to call when and what to do about a refusal, and has the image; docs/frames.md has every frame and answer
 * with an example.
 *
 * Numbers of more than one byte are big-endian, in frames, answers and image.
 */
#ifndef TILESORREL_H
#define TILESORREL_H

#include <stddef.h>
#include <stdint.h>

/*
 * The version of this header and of the library that it is for: major * 10000 + minor * 100 + patch, here 1.0.0.
 *
 * Another major says that an image, a frame or an answer of before is not understood, or means something else; another
 * minor that there are new calls or functions; another patch neither. Store it beside an image that you keep.
 */
#define TILESORREL_VERSION 10000

#ifdef __cplusplus
extern "C" {
#endif

/* ---- Functions ---- */

/*
 * Writes the image of a new scheduler: no tasks, no core that holds one, no time passed.
 *
 * Returns 0, and every byte of the image is written; or TILESORREL_REFUSED + TILESORREL_WRONG_LENGTH if image_len is
 * not TILESORREL_IMAGE_BYTES, and no byte is.
 */
uint64_t new_image(uint8_t *image, size_t image_len);

/*
 * Does a frame's call on the image, and puts its answer at the front of the buffer.
 *
 * Returns the answer's length, 3 to TILESORREL_ANSWER_BYTES. The image holds the state after the call, and bytes of the
 * buffer past the answer keep what they held. A call that is refused with 1 to 6 has an answer too, of 3 bytes, the
 * first of which is the number; the image is then as it was.
 *
 * Returns TILESORREL_REFUSED + TILESORREL_WRONG_LENGTH, TILESORREL_NOT_ACCEPTED or TILESORREL_NO_FRAME where no call
 * was made; they are looked at in this order. Image and buffer are then as they were.
 *
 * Any bytes of any length may be passed. Each pointer must be good for its length, the three areas must not overlap,
 * and nobody else may touch image and answer, or write the frame, until the call returns.
 */
uint64_t step(uint8_t *image, size_t image_len, const uint8_t *frame, size_t frame_len, uint8_t *answer,
              size_t answer_len);

/* ---- Sizes ---- */

#define TILESORREL_SLOTS 64          /* tasks stand in slots 0 to 63 */
#define TILESORREL_CORES 64          /* cores are 0 to 63 */
#define TILESORREL_IMAGE_BYTES 3275  /* an image has exactly this many bytes */
#define TILESORREL_ANSWER_BYTES 51   /* the longest answer: a buffer has at least this many bytes */
#define TILESORREL_FRAME_BYTES 30    /* the longest frame, which is create's */
#define TILESORREL_STACK_BYTES 32768 /* no call takes more stack than this; docs/host.md has what was measured */

/*
 * ---- Calls: the first byte of a frame, and the frame's length ----
 *
 * From byte 1 on stand the fields, one behind the other, each with its number of bytes. A slot or a core takes 8 and
 * may be any number. So a slot or a core is at byte 1, a mask or microseconds at byte 9. "Comes back" is the answer's
 * value, from TILESORREL_VALUE_AT on; a refused call has none. A call that names no refusal is refused with none of 1
 * to 6. The names that end in _BYTES here are lengths of frames.
 */

/* Makes a task in the lowest free slot: Blocked, on all cores. Enqueue or wake it next.
 * Fields: tid 4, band 1, context 8, cr3 8, rsp0 8 (at bytes 1, 5, 6, 14, 22). Comes back: the slot, 1 byte. Refused: 1
 * if no slot is free. */
#define TILESORREL_CREATE 0x00
#define TILESORREL_CREATE_BYTES 30

/* Sets the cores that a slot may use: bit N of the mask permits core N, and a mask of 0 is taken as all of them. A core
 * that holds the task goes on with it. Create sets all again.
 * Fields: slot 8, mask 8. Comes back: nothing. Refused: 3 if the slot is 64 or above; a free one will do. */
#define TILESORREL_AFFINITY 0x01
#define TILESORREL_AFFINITY_BYTES 17

/* Frees a slot: out of every queue, held by no core.
 * Fields: slot 8. Comes back: nothing. Refused: 3 if the slot is 64 or above; a free one will do. */
#define TILESORREL_TERMINATE 0x02
#define TILESORREL_TERMINATE_BYTES 9

/* Takes a task out of its queue and makes it Blocked, with nothing consumed; a core that holds it goes on holding it.
 * Block a task that runs only while its core holds it, seen in the same lock: by now its slot may be another's.
 * Fields: slot 8. Comes back: nothing. Refused: 3 if the slot is 64 or above or free, then 5 if it is Blocked. */
#define TILESORREL_BLOCK 0x03
#define TILESORREL_BLOCK_BYTES 9

/* Ends a block: Running where a core still holds the task, else Ready at the tail of its band.
 * Fields: slot 8. Comes back: nothing. Refused: 3 if the slot is 64 or above or free, then 6 if it is not Blocked. */
#define TILESORREL_WAKE 0x04
#define TILESORREL_WAKE_BYTES 9

/* Puts a Blocked or Running task at the tail of its band: Ready. A core that holds it goes on holding it, while another
 * may pick it: so enqueue tasks that no core holds, and wake those that were blocked.
 * Fields: slot 8. Comes back: nothing. Refused: 3 if the slot is 64 or above or free, then 4 if it is Ready. */
#define TILESORREL_ENQUEUE 0x05
#define TILESORREL_ENQUEUE_BYTES 9

/* Picks a task for a core, which then holds it, or nobody if nobody waits who may use it. The task that it held is not
 * queued: a Running one stays Running, in no queue and on no core, and is not picked again until it is enqueued, or
 * blocked and woken. The image is accepted all the same, so that nothing shows the loss. So call it only where you have
 * had the lock since you saw that the core holds nobody, or a task that is Ready or Blocked, or where you enqueue the
 * one left before you give the lock back. Anywhere else a tick of 0 microseconds does it: on a core that holds nobody
 * it picks, and a task that another tick has given the core meanwhile goes on, or back to its queue.
 * Fields: core 8. Comes back: the slot, or TILESORREL_NONE, 1 byte. A core of 64 or above gives TILESORREL_NONE, and
 * nothing is changed. */
#define TILESORREL_SCHEDULE 0x06
#define TILESORREL_SCHEDULE_BYTES 9

/* A core's timer: adds the time to the task that it holds. Where its slice is over, or a task that may use this core
 * waits in an earlier band, it goes to the tail of its band, unless it is Ready and waits there already, and there is a
 * pick, which may be it again. So too where it is Blocked, without being queued, and where the core holds nobody. With
 * 0 microseconds it is for a core that may be without a task: after a terminate, a wake or a refused handoff.
 * Fields: core 8, elapsed microseconds 4. Comes back: the slot to run, or TILESORREL_NONE, 1 byte. A core of 64 or
 * above gives TILESORREL_NONE, and nothing is changed. */
#define TILESORREL_TICK 0x07
#define TILESORREL_TICK_BYTES 13

/* A core's Running task goes to the tail of its band, then a pick.
 * Fields: core 8. Comes back: a plan. Refused: 3 if the core is 64 or above, or holds a task that is not Running; a
 * core that holds nobody will do. */
#define TILESORREL_YIELD 0x08
#define TILESORREL_YIELD_BYTES 9

/* A pick in place of a core's Blocked task; a Running one goes on, and there is no plan.
 * Fields: core 8. Comes back: a plan. Refused: 3 if the core is 64 or above or holds nobody, where a tick of 0
 * microseconds is right, then 6 if it holds a Ready one, where a schedule is, before the lock is given back. */
#define TILESORREL_HANDOFF 0x09
#define TILESORREL_HANDOFF_BYTES 9

/* A tick that comes back as a plan; a core of 64 or above has none, and nothing is changed.
 * Fields: core 8, elapsed microseconds 4. Comes back: a plan. */
#define TILESORREL_PLAN 0x0a
#define TILESORREL_PLAN_BYTES 13

/* Whether a slot's mask permits a core, which is taken modulo 64. A query: it changes nothing.
 * Fields: slot 8, core 8. Comes back: 0 or 1, 1 byte; 0 for a slot of 64 or above. */
#define TILESORREL_CAN_RUN_ON_CORE 0x0b
#define TILESORREL_CAN_RUN_ON_CORE_BYTES 17

/* The lowest slot in use that has a tid. A query.
 * Fields: tid 4. Comes back: the slot, or TILESORREL_NONE, 1 byte. */
#define TILESORREL_TASK_INDEX_FOR_TID 0x0c
#define TILESORREL_TASK_INDEX_FOR_TID_BYTES 5

/* A slot's record. A query. A free slot has one too, with what its last task had: look at in use.
 * Fields: slot 8. Comes back: 1 and the record, 48 bytes; or 0 for a slot of 64 or above, 1 byte. */
#define TILESORREL_TASK 0x0d
#define TILESORREL_TASK_BYTES 9

/* The record of the task that a core holds. A query.
 * Fields: core 8. Comes back: 1 and the record, 48 bytes; or 0 if there is none or the core is 64 or above, 1 byte. */
#define TILESORREL_CURRENT_TASK_ON_CPU 0x0e
#define TILESORREL_CURRENT_TASK_ON_CPU_BYTES 9

/* The microseconds that ticks and plans have reported, added up over all cores: no clock. A query.
 * Fields: none. Comes back: 8 bytes. */
#define TILESORREL_SYSTEM_MICROSECONDS 0x0f
#define TILESORREL_SYSTEM_MICROSECONDS_BYTES 1

/* The lowest core that holds a slot. A query.
 * Fields: slot 8. Comes back: the core, or TILESORREL_NONE, 1 byte. */
#define TILESORREL_HOLDER 0x10
#define TILESORREL_HOLDER_BYTES 9

/* ---- An answer's bytes ---- */

#define TILESORREL_STATUS_AT 0    /* 0, or the number of a refusal */
#define TILESORREL_PICK_SLOT_AT 1 /* the slot that was picked in this call, maybe the same again, or TILESORREL_NONE */
#define TILESORREL_PICK_BAND_AT 2 /* the band that it was picked from, or TILESORREL_NONE */
#define TILESORREL_VALUE_AT 3     /* what comes back, by the call */

#define TILESORREL_DONE 0x00 /* the status of a call that is not refused */
#define TILESORREL_NONE 0xff /* no slot, no core, no band; as the target of a plan: idle */

/* A plan is 0, 1 byte: the core holds whom it held before the call, or still nobody. Or it is 1 and what follows, 11
 * bytes. Places count from TILESORREL_VALUE_AT. */
#define TILESORREL_PLAN_SWITCH 1      /* the first byte, where the core is to switch */
#define TILESORREL_PLAN_PREVIOUS_AT 1 /* the slot that the core held, or TILESORREL_NONE */
#define TILESORREL_PLAN_TARGET_AT 2   /* the slot that it is to run, or TILESORREL_NONE: idle */
#define TILESORREL_PLAN_CR3_AT 3      /* the target's cr3, 8 bytes; 0 if idle */

/* ---- Refusals 1 to 6: an answer's status. The call changed nothing and picked nobody. ---- */

#define TILESORREL_TABLE_FULL 1      /* create: no slot is free. Terminate a task first. */
#define TILESORREL_QUEUE_FULL 2      /* 64 entries stand in the queue. It is proved that this is never answered. */
#define TILESORREL_NO_SUCH_TASK 3    /* no such slot or core, or nobody there whom the call is for: see the call. */
#define TILESORREL_ALREADY_READY 4   /* enqueue: it waits in its queue. Nothing is to be done. */
#define TILESORREL_ALREADY_BLOCKED 5 /* block: it is Blocked. Nothing is to be done. */
#define TILESORREL_NOT_BLOCKED 6 /* wake: it is not Blocked, so it runs or waits; handoff: it is Ready, see there. */

/* ---- Refusals 7 to 9: returned, with TILESORREL_REFUSED added. Nothing was touched. ---- */

#define TILESORREL_REFUSED 256    /* what step returns is a length below this, or this and a refusal */
#define TILESORREL_WRONG_LENGTH 7 /* the image does not have 3,275 bytes, or the answer buffer has under 51 */
#define TILESORREL_NOT_ACCEPTED 8 /* the bytes are no image: not new_image's, or somebody else wrote there. */
#define TILESORREL_NO_FRAME 9     /* the frame's first byte, length or band is wrong. Mend the caller. */

/* ---- Bands: what a task is for. An earlier band runs before a later one. ---- */

#define TILESORREL_USER_INTERACTIVE 0 /* slices of 2,000 microseconds */
#define TILESORREL_REAL_TIME_IO 1     /* slices of 5,000 microseconds */
#define TILESORREL_BACKGROUND 2       /* slices of 20,000 microseconds */
#define TILESORREL_BANDS 3            /* a frame with a band of this or above is refused with 9 */

/* ---- States of a task ---- */

#define TILESORREL_READY 0      /* it stands in its band's queue, once */
#define TILESORREL_RUNNING 1    /* it was picked, or woken while a core held it */
#define TILESORREL_BLOCKED 2    /* it waits for a wake or an enqueue */
#define TILESORREL_TERMINATED 3 /* the slot is free */

/* ---- A record's bytes, in an image and behind the 1 of TILESORREL_TASK ---- */

#define TILESORREL_TID_AT 0       /* 4 bytes: the host's own number, which several tasks may share */
#define TILESORREL_BAND_AT 4      /* 1: a band */
#define TILESORREL_STATE_AT 5     /* 1: a state */
#define TILESORREL_CONTEXT_AT 6   /* 8: the host's, kept as it was given */
#define TILESORREL_CR3_AT 14      /* 8: the host's, kept as it was given */
#define TILESORREL_RSP0_AT 22     /* 8: the host's, kept as it was given */
#define TILESORREL_MASK_AT 30     /* 8: bit N permits core N */
#define TILESORREL_BUDGET_AT 38   /* 4: microseconds, 0 or the band's slice */
#define TILESORREL_CONSUMED_AT 42 /* 4: microseconds of it that are gone */
#define TILESORREL_IN_USE_AT 46   /* 1: 0 or 1 */
#define TILESORREL_RECORD_BYTES 47

/* ---- An image's bytes. A host may read them between calls; it writes them only by copying an image whole. ---- */

#define TILESORREL_RECORDS_AT 0    /* slot S's record is at S * TILESORREL_RECORD_BYTES */
#define TILESORREL_QUEUES_AT 3008  /* band B's queue is at this + B * TILESORREL_QUEUE_BYTES */
#define TILESORREL_QUEUE_BYTES 65  /* a length, then 64 slots from front to tail; those behind the length are 0 */
#define TILESORREL_HOLDERS_AT 3203 /* the slot that core C holds is at this + C; TILESORREL_NONE if none */
#define TILESORREL_MICROS_AT 3267  /* 8: what TILESORREL_SYSTEM_MICROSECONDS answers */

/* ---- Big-endian numbers ---- */

/* Writes a number as that many bytes, the largest first; what has no room is left out. */
static inline void tilesorrel_put(uint8_t *at, size_t bytes, uint64_t number)
{
    while (bytes > 0) {
        bytes -= 1;
        at[bytes] = (uint8_t)(number & 0xff);
        number >>= 8;
    }
}

/* The number that stands in that many bytes, at most 8. */
static inline uint64_t tilesorrel_get(const uint8_t *at, size_t bytes)
{
    uint64_t number = 0;
    size_t i;
    for (i = 0; i < bytes; i += 1) {
        number = number << 8 | at[i];
    }
    return number;
}

#ifdef __cplusplus
}
#endif

#endif
