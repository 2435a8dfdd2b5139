/*
 * How much stack `step` and `new_image` take. Each call is made on a stack that was filled with marks, and the lowest
 * byte that is no mark afterwards says how far down it went. Made are all calls, in an order drawn by dice, on slots
 * and cores that there are and that there are not; some are refused, or no frame. Each is a check: it went no deeper
 * than the header says. So is, at the end, that every call was done, and that those that pick did pick.
 */
#include "frames.h"
#include "tilesorrel.h"
#include <pthread.h>
#include <stdio.h>
#include <string.h>

#define STACK_BYTES (4 * TILESORREL_STACK_BYTES)
#define MARK 0xa7

/* Room for the frames of the functions here, which are counted too. */
#define MARGIN 512

#define CALLS 17
#define ROUNDS 8192

static uint8_t stack[STACK_BYTES];
static uint8_t image[TILESORREL_IMAGE_BYTES];
static uint8_t answer[TILESORREL_ANSWER_BYTES];

/* The most that each call took, how often it was done, and how often it picked; the last is new_image. */
static size_t deepest[CALLS + 1];
static unsigned done[CALLS + 1];
static unsigned picked[CALLS + 1];

static unsigned long checks;
static unsigned long failed;

static void check(int holds, const char *what, unsigned call)
{
    checks += 1;
    if (!holds) {
        failed += 1;
        fprintf(stderr, "call %02x: %s\n", call, what);
    }
}

/* The next throw of the dice, below that number. They are the same in each run. */
static uint32_t drawn(uint32_t below)
{
    static uint64_t dice = 1;
    dice = dice * 6364136223846793005u + 1442695040888963407u;
    return (uint32_t)(dice >> 33) % below;
}

/* A frame of that call. */
static void asks(uint8_t call)
{
    uint64_t number = drawn(TILESORREL_SLOTS + 2);
    switch (call) {
    case TILESORREL_CREATE:
        create(drawn(100), drawn(TILESORREL_BANDS + 1), number);
        break;
    case TILESORREL_AFFINITY:
        affinity(number, (uint64_t)drawn(UINT32_MAX) << drawn(32));
        break;
    case TILESORREL_TICK:
    case TILESORREL_PLAN:
        of_timer(call, number, drawn(3) * 10000);
        break;
    case TILESORREL_CAN_RUN_ON_CORE:
        of_slot_and_core(number, number);
        break;
    case TILESORREL_TASK_INDEX_FOR_TID:
        of_tid(drawn(100));
        break;
    case TILESORREL_SYSTEM_MICROSECONDS:
        of_nothing(call);
        break;
    default:
        of_slot(call, number);
        break;
    }
}

/* Notes how far below `here` the marks are gone. */
static void measured(unsigned call, const uint8_t *here)
{
    const uint8_t *lowest = stack;
    size_t depth;
    while (lowest < here && *lowest == MARK) {
        lowest += 1;
    }
    depth = (size_t)(here - lowest);
    check(depth <= TILESORREL_STACK_BYTES, "deeper than the header says", call);
    if (depth > deepest[call]) {
        deepest[call] = depth;
    }
}

/* One call on a marked stack, which is this thread's. */
static uint64_t called(unsigned call)
{
    uint8_t here = MARK;
    uint64_t returned;
    memset(stack, MARK, (size_t)(&here - stack) - MARGIN);
    if (call == CALLS) {
        returned = new_image(image, sizeof image);
    } else {
        returned = step(image, sizeof image, frame, frame_len, answer, sizeof answer);
    }
    measured(call, &here);
    return returned;
}

static void *all_calls(void *unused)
{
    unsigned round;
    new_image(image, sizeof image); /* not measured: here the linker looks memcpy up, which takes stack of its own */
    called(CALLS);
    for (round = 0; round < ROUNDS; round += 1) {
        uint8_t call = (uint8_t)drawn(CALLS);
        asks(call);
        if (called(call) < TILESORREL_REFUSED && answer[TILESORREL_STATUS_AT] == TILESORREL_DONE) {
            done[call] += 1;
            picked[call] += answer[TILESORREL_PICK_SLOT_AT] == TILESORREL_NONE ? 0 : 1;
        }
    }
    return unused;
}

int main(void)
{
    pthread_attr_t attributes;
    pthread_t thread;
    unsigned call;
    if (pthread_attr_init(&attributes) != 0 || pthread_attr_setstack(&attributes, stack, sizeof stack) != 0 ||
        pthread_create(&thread, &attributes, all_calls, NULL) != 0 || pthread_join(thread, NULL) != 0) {
        fprintf(stderr, "stack: no thread could be made on a stack of %d bytes\n", STACK_BYTES);
        return 2;
    }
    for (call = 0; call < CALLS; call += 1) {
        int picks = call >= TILESORREL_SCHEDULE && call <= TILESORREL_PLAN;
        check(done[call] > 0, "never done", call);
        check((picked[call] > 0) == picks, "it never picked, or should not have", call);
        printf("call %02x: %lu bytes of stack\n", call, (unsigned long)deepest[call]);
    }
    printf("new_image: %lu bytes of stack\n", (unsigned long)deepest[CALLS]);
    printf("%lu checks, %lu failed\n", checks, failed);
    return failed == 0 ? 0 : 1;
}
