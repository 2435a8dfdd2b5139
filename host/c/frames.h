/* The frame that is passed next: a call's first byte and its fields, as include/tilesorrel.h has them. Inline, since
 * not every program needs each. */
#ifndef FRAMES_H
#define FRAMES_H

#include "tilesorrel.h"
#include <string.h>

static uint8_t frame[TILESORREL_FRAME_BYTES + 1];
static size_t frame_len;

/* What the last create asked for: cr3 and rsp0 are made from the context. */
static uint32_t created_tid;
static unsigned created_band;
static uint64_t created_context;

static inline uint64_t cr3_of(uint64_t context)
{
    return context << 8 | 0xc3;
}

static inline uint64_t rsp0_of(uint64_t context)
{
    return context << 8 | 0xb0;
}

static inline void of_nothing(uint8_t call)
{
    frame[0] = call;
    frame_len = 1;
}

/* One more field of the frame. */
static inline void with(size_t bytes, uint64_t number)
{
    tilesorrel_put(frame + frame_len, bytes, number);
    frame_len += bytes;
}

static inline void of_slot(uint8_t call, uint64_t slot)
{
    of_nothing(call);
    with(8, slot);
}

static inline void of_core(uint8_t call, uint64_t core)
{
    of_nothing(call);
    with(8, core);
}

static inline void of_timer(uint8_t call, uint64_t core, uint32_t elapsed)
{
    of_core(call, core);
    with(4, elapsed);
}

static inline void affinity(uint64_t slot, uint64_t mask)
{
    of_slot(TILESORREL_AFFINITY, slot);
    with(8, mask);
}

static inline void of_slot_and_core(uint64_t slot, uint64_t core)
{
    of_slot(TILESORREL_CAN_RUN_ON_CORE, slot);
    with(8, core);
}

static inline void of_tid(uint32_t tid)
{
    of_nothing(TILESORREL_TASK_INDEX_FOR_TID);
    with(4, tid);
}

static inline void create(uint32_t tid, unsigned band, uint64_t context)
{
    created_tid = tid;
    created_band = band;
    created_context = context;
    of_nothing(TILESORREL_CREATE);
    with(4, tid);
    with(1, band);
    with(8, context);
    with(8, cr3_of(context));
    with(8, rsp0_of(context));
}

/* The length that a call's frame must have. */
static inline size_t frame_bytes(uint8_t call)
{
    static const size_t bytes[] = {
        TILESORREL_CREATE_BYTES,
        TILESORREL_AFFINITY_BYTES,
        TILESORREL_TERMINATE_BYTES,
        TILESORREL_BLOCK_BYTES,
        TILESORREL_WAKE_BYTES,
        TILESORREL_ENQUEUE_BYTES,
        TILESORREL_SCHEDULE_BYTES,
        TILESORREL_TICK_BYTES,
        TILESORREL_YIELD_BYTES,
        TILESORREL_HANDOFF_BYTES,
        TILESORREL_PLAN_BYTES,
        TILESORREL_CAN_RUN_ON_CORE_BYTES,
        TILESORREL_TASK_INDEX_FOR_TID_BYTES,
        TILESORREL_TASK_BYTES,
        TILESORREL_CURRENT_TASK_ON_CPU_BYTES,
        TILESORREL_SYSTEM_MICROSECONDS_BYTES,
        TILESORREL_HOLDER_BYTES,
    };
    return bytes[call];
}

/* The bytes that hexadecimal digits stand for, two a byte, and how many they are; blanks are for reading. */
static inline size_t bytes_of(const char *digits, uint8_t *bytes)
{
    static const char all[] = "0123456789abcdef";
    size_t n = 0;
    for (; *digits != '\0'; digits += 1) {
        if (*digits != ' ') {
            size_t digit = (size_t)(strchr(all, *digits) - all);
            bytes[n / 2] = (uint8_t)(n % 2 == 0 ? digit << 4 : bytes[n / 2] | digit);
            n += 1;
        }
    }
    return n / 2;
}

static inline void of_bytes(const char *digits)
{
    frame_len = bytes_of(digits, frame);
}

#endif
