/*
 * The watcher of kernel.c. It looks at the image after each call, under the kernel's lock, and at the image before: is
 * it accepted, and is no task lost, from its queue or from its core? What it looks for in the bytes is written here from
 * docs/host.md, and not asked of the library. It is tried on damaged images first, and on races.h; and it counts what
 * the cores do, so that a run in which nothing happens fails too.
 */
#ifndef WATCHER_H
#define WATCHER_H

#include "tilesorrel.h"
#include <stdbool.h>
#include <stdio.h>
#include <string.h>

enum { FAILURES_TOLD = 20, PICKS_WANTED = 10 };

static const char REFUSED[] = "the call is refused";
static const char MISPLACED[] = "not in its queue once while Ready, or in a queue while not Ready";
static const char LOST[] = "no longer Ready, but neither picked nor taken out";
static const char WRONG_PICK[] = "picked, but it did not wait, or is not Running, or is of another band";
static const char ON_NO_CORE[] = "Running, but no core holds it";
static const char NOT_ACCEPTED[] = "the image is not accepted";

/* The eleven calls, and the one query that the kernel makes. */
static const char *const call_names[] = {"create", "affinity", "terminate", "block",
                                         "wake",   "enqueue",  "schedule",  "tick",
                                         "yield",  "handoff",  "plan",      [TILESORREL_HOLDER] = "holder"};

/* The image before the call that is watched. */
static uint8_t before[TILESORREL_IMAGE_BYTES];

/* What was counted. */
static unsigned checks, failed, done[TILESORREL_HOLDER + 1], refused[UINT8_MAX + 1];
static unsigned picks, picks_of[TILESORREL_SLOTS], picks_on[TILESORREL_CORES], waits_in[TILESORREL_BANDS];

/* How many cores were kicked after a call, and how many had a task again when they came to look. */
static unsigned kicks_after[TILESORREL_HOLDER + 1], given_before;

/* Where a field of a slot's record stands. */
static size_t at(unsigned slot, size_t field)
{
    return TILESORREL_RECORDS_AT + slot * TILESORREL_RECORD_BYTES + field;
}

/* How often a slot stands in a band's queue. */
static unsigned entries(const uint8_t *now, unsigned band, unsigned slot)
{
    const uint8_t *queue = now + TILESORREL_QUEUES_AT + band * TILESORREL_QUEUE_BYTES;
    unsigned count = 0;
    for (unsigned place = 1; place <= queue[0] && place < TILESORREL_QUEUE_BYTES; place += 1) {
        count += queue[place] == slot ? 1 : 0;
    }
    return count;
}

/* What a call did wrong with a slot, or NULL. A pick may be of the core's own task, which tick, plan and yield queue
 * first. A Running task that no core holds is lost. Only schedule leaves one so: the kernel never calls it, and races.h
 * does. */
static const char *slot_fault(unsigned slot, const uint8_t *was, const uint8_t *now, const uint8_t *frame,
                              const uint8_t *answer)
{
    uint8_t call = frame[0], old = was[at(slot, TILESORREL_STATE_AT)], state = now[at(slot, TILESORREL_STATE_AT)];
    uint8_t own_band = now[at(slot, TILESORREL_BAND_AT)];
    uint64_t named = tilesorrel_get(frame + 1, 8);
    bool picked = answer[TILESORREL_PICK_SLOT_AT] == slot;
    bool taken_out = (call == TILESORREL_BLOCK || call == TILESORREL_TERMINATE) && named == slot;
    bool queued_first = (call == TILESORREL_TICK || call == TILESORREL_PLAN || call == TILESORREL_YIELD) &&
                        was[TILESORREL_HOLDERS_AT + named] == slot && old == TILESORREL_RUNNING;
    for (unsigned band = 0; band < TILESORREL_BANDS; band += 1) {
        if (entries(now, band, slot) != (state == TILESORREL_READY && band == own_band ? 1 : 0)) {
            return MISPLACED;
        }
    }
    if (old == TILESORREL_READY && state != TILESORREL_READY && !picked && !taken_out) {
        return LOST;
    }
    if (picked && ((old != TILESORREL_READY && !queued_first) || state != TILESORREL_RUNNING ||
                   own_band != answer[TILESORREL_PICK_BAND_AT])) {
        return WRONG_PICK;
    }
    if (state == TILESORREL_RUNNING && memchr(now + TILESORREL_HOLDERS_AT, (int)slot, TILESORREL_CORES) == NULL) {
        return ON_NO_CORE;
    }
    return NULL;
}

/* What a call did wrong, or NULL, and with which slot. The image is asked last whether it is accepted: if not, even a
 * query is refused, which changes nothing. */
static const char *fault(const uint8_t *was, uint8_t *now, const uint8_t *frame, const uint8_t *answer, unsigned *slot)
{
    const uint8_t query[TILESORREL_SYSTEM_MICROSECONDS_BYTES] = {TILESORREL_SYSTEM_MICROSECONDS};
    uint8_t told[TILESORREL_ANSWER_BYTES];
    for (*slot = 0; *slot < TILESORREL_SLOTS; *slot += 1) {
        const char *what = slot_fault(*slot, was, now, frame, answer);
        if (what != NULL) {
            return what;
        }
    }
    *slot = answer[TILESORREL_PICK_SLOT_AT];
    if (*slot >= TILESORREL_SLOTS && *slot != TILESORREL_NONE) {
        return WRONG_PICK;
    }
    *slot = TILESORREL_NONE;
    if (step(now, TILESORREL_IMAGE_BYTES, query, sizeof query, told, sizeof told) >= TILESORREL_REFUSED) {
        return NOT_ACCEPTED;
    }
    return NULL;
}

static void check(bool holds, const char *what, unsigned number)
{
    checks += 1;
    failed += holds ? 0 : 1;
    if (!holds && failed <= FAILURES_TOLD) {
        fprintf(stderr, "check %u: %s: %u\n", checks, what, number);
    }
}

/* Counts a call that a core made. */
static void count(const uint8_t *image, uint8_t core, const uint8_t *frame, const uint8_t *answer, uint8_t status)
{
    uint8_t pick = answer[TILESORREL_PICK_SLOT_AT];
    for (unsigned band = 0; band < TILESORREL_BANDS; band += 1) {
        waits_in[band] += image[TILESORREL_QUEUES_AT + band * TILESORREL_QUEUE_BYTES] > 0 ? 1 : 0;
    }
    if (status != TILESORREL_DONE) {
        refused[status] += 1;
        return;
    }
    done[frame[0]] += 1;
    if (pick < TILESORREL_SLOTS) {
        picks += 1;
        picks_of[pick] += 1;
        picks_on[core] += 1;
    }
    if (frame[0] == TILESORREL_TICK && tilesorrel_get(frame + 9, 4) == 0) {
        given_before += before[TILESORREL_HOLDERS_AT + core] == TILESORREL_NONE ? 0 : 1;
    }
}

/* Keeps the image as it is before a call. */
static void remember(const uint8_t *image)
{
    memcpy(before, image, sizeof before);
}

/* One check for each call; it may be refused where that is expected. Then the call is counted. */
static void watch(uint8_t *image, uint8_t core, const uint8_t *frame, const uint8_t *answer, uint8_t status,
                  bool may_be_refused)
{
    unsigned slot;
    char words[160] = "";
    const char *what = fault(before, image, frame, answer, &slot);
    if (status != TILESORREL_DONE && !may_be_refused) {
        what = REFUSED;
        slot = TILESORREL_NONE;
    }
    if (what != NULL) {
        snprintf(words, sizeof words, "core %u, %s of %u, status %u: %s: slot", core, call_names[frame[0]],
                 (unsigned)tilesorrel_get(frame + 1, 8), status, what);
    }
    check(what == NULL, words, slot);
    count(image, core, frame, answer, status);
}

/* The watcher has to find this between two images, for a tick that tells this pick, of band 0 or none. */
static void expect(const char *words, unsigned slot, const uint8_t *was, uint8_t *now, uint8_t pick)
{
    const uint8_t tick[TILESORREL_TICK_BYTES] = {TILESORREL_TICK};
    const uint8_t answer[] = {TILESORREL_DONE, pick, TILESORREL_USER_INTERACTIVE, pick};
    unsigned found;
    const char *what = fault(was, now, tick, answer, &found);
    check(what == words && found == slot, "the watcher does not find what it has to: slot", slot);
}

/* The watcher's own trial: an image as it should be, and damage to the last slot of band 0's queue. */
static void try_watcher(const uint8_t *image)
{
    uint8_t now[TILESORREL_IMAGE_BYTES];
    uint8_t *queue = now + TILESORREL_QUEUES_AT, *next_queue = queue + TILESORREL_QUEUE_BYTES;
    uint8_t slot = image[TILESORREL_QUEUES_AT + image[TILESORREL_QUEUES_AT]];
    uint8_t *state = now + at(slot, TILESORREL_STATE_AT);
    memcpy(now, image, sizeof now);
    expect(NULL, TILESORREL_NONE, image, now, TILESORREL_NONE);
    expect(WRONG_PICK, slot, image, now, slot);                         /* it still waits */
    expect(WRONG_PICK, TILESORREL_SLOTS, image, now, TILESORREL_SLOTS); /* there is no such slot */
    *state = TILESORREL_BLOCKED;
    expect(MISPLACED, slot, image, now, TILESORREL_NONE); /* its entry is still there */
    queue[queue[0]] = 0;
    queue[0] -= 1;
    *state = TILESORREL_RUNNING;
    expect(LOST, slot, image, now, TILESORREL_NONE);     /* its entry is gone, it runs, and was not picked */
    expect(ON_NO_CORE, slot, now, now, TILESORREL_NONE); /* it has run so since an earlier call */
    expect(WRONG_PICK, slot, now, now, slot);            /* it did not wait */
    *state = TILESORREL_READY;
    expect(MISPLACED, slot, image, now, TILESORREL_NONE); /* its entry is gone */
    next_queue[0] += 1;
    next_queue[next_queue[0]] = slot;
    expect(MISPLACED, slot, image, now, TILESORREL_NONE); /* its entry is in the next band's queue */
    memcpy(now, image, sizeof now);
    queue[0] += 1;
    queue[queue[0]] = slot;
    expect(MISPLACED, slot, image, now, TILESORREL_NONE); /* it has two entries */
    memcpy(now, image, sizeof now);
    tilesorrel_put(now + at(slot, TILESORREL_MASK_AT), 8, 0);
    expect(NOT_ACCEPTED, TILESORREL_NONE, image, now, TILESORREL_NONE); /* no core may run it */
}

/* Checks that the run was worth something: that tasks, cores and queues were in use, and every kind of call; and that
 * cores were kicked, after a terminate and after a wake. */
static int conclude(void)
{
    for (unsigned slot = 0; slot < TILESORREL_SLOTS; slot += 1) {
        check(picks_of[slot] >= PICKS_WANTED, "picked too seldom: slot", slot);
    }
    for (unsigned core = 0; core < TILESORREL_CORES; core += 1) {
        check(picks_on[core] > 0, "never given a task: core", core);
    }
    for (unsigned band = 0; band < TILESORREL_BANDS; band += 1) {
        check(waits_in[band] > checks / 4, "nobody waiting after most calls: band", band);
    }
    for (unsigned call = 0; call <= TILESORREL_HOLDER; call += 1) {
        if (call_names[call] != NULL && call != TILESORREL_SCHEDULE) {
            check(done[call] > 0, "never done: call", call);
            printf("%u %s, ", done[call], call_names[call]);
        }
    }
    check(kicks_after[TILESORREL_TERMINATE] > 0, "no core was kicked after call", TILESORREL_TERMINATE);
    check(kicks_after[TILESORREL_WAKE] > 0, "no core was kicked after call", TILESORREL_WAKE);
    check(given_before > 0, "no kicked core had a task again before it looked, of", kicks_after[TILESORREL_TERMINATE]);
    printf("%u picks\n%u cores kicked after a terminate, %u after a wake; %u had a task again before they looked\n",
           picks, kicks_after[TILESORREL_TERMINATE], kicks_after[TILESORREL_WAKE], given_before);
    printf("refused with 3, 5, 6: %u, %u, %u; somebody waiting in band 0, 1, 2: after %u, %u, %u calls\n",
           refused[TILESORREL_NO_SUCH_TASK], refused[TILESORREL_ALREADY_BLOCKED], refused[TILESORREL_NOT_BLOCKED],
           waits_in[0], waits_in[1], waits_in[2]);
    printf("%u checks, %u failed\n", checks, failed);
    return failed == 0 ? 0 : 1;
}

#endif
