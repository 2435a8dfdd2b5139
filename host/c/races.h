/*
 * What schedule can lose. docs/host.md has calls that follow one another: a task ends, or is woken while a core is
 * idle, and that core looks for another. With a lock around each call the core's own tick can come in between, and give
 * it a task; a schedule then takes the core away from that task without queuing it: it is Running, on no core, and
 * never picked again. The image stays accepted, so that no call shows it.
 *
 * Here each such row is gone through in that order, on an image of its own: the watcher has to find the lost task after
 * a schedule, and nothing after a tick or a plan of 0 microseconds, nor after a schedule with nothing in between, as
 * where the lock is held over the row.
 */
#ifndef RACES_H
#define RACES_H

#include "tilesorrel.h"
#include "watcher.h"
#include <stdbool.h>
#include <stdio.h>
#include <string.h>

enum { ROW_CALLS = 2, CALLS_BETWEEN = 2, SLICE = 5000 /* band 1's */ };

/* A call about a slot or a core. None where it is 0: no row has a create. */
struct call {
    uint8_t call;
    uint8_t number;
};

/* At first core 0 runs slot 0 and slot 1 waits, both of band 1; slot 2, of band 0, is Blocked. */
static const struct race {
    const char *name;
    struct call row[ROW_CALLS];         /* what comes before the core looks for a task */
    struct call between[CALLS_BETWEEN]; /* and what may come before it does */
    uint8_t core;
    uint8_t lost; /* the slot that a schedule loses */
} races[] = {
    {"a task ends", {{TILESORREL_HOLDER, 0}, {TILESORREL_TERMINATE, 0}}, {{TILESORREL_TICK, 0}}, 0, 1},
    {"a task ends, and one of an earlier band is woken",
     {{TILESORREL_HOLDER, 0}, {TILESORREL_TERMINATE, 0}},
     {{TILESORREL_TICK, 0}, {TILESORREL_WAKE, 2}},
     0,
     1},
    {"a core is idle, and a task is woken", {{TILESORREL_WAKE, 2}}, {{TILESORREL_TICK, 1}}, 1, 2},
    {"a core comes up", {{0, 0}}, {{TILESORREL_TICK, 1}}, 1, 1},
    {"handoff refused with 3", {{TILESORREL_TERMINATE, 0}, {TILESORREL_HANDOFF, 0}}, {{TILESORREL_TICK, 0}}, 0, 1},
    {"handoff refused with 6", {{TILESORREL_ENQUEUE, 0}, {TILESORREL_HANDOFF, 0}}, {{TILESORREL_TICK, 0}}, 0, 1},
    {"yield refused with 3", {{TILESORREL_ENQUEUE, 0}, {TILESORREL_YIELD, 0}}, {{TILESORREL_TICK, 0}}, 0, 1},
};

/* Does a call on an image, a tick or plan with these microseconds; comes back with what the watcher finds wrong, or
 * NULL, and in which slot. */
static const char *found_after(uint8_t *image, struct call call, uint32_t micros, unsigned *slot)
{
    uint8_t was[TILESORREL_IMAGE_BYTES], frame[TILESORREL_TICK_BYTES], answer[TILESORREL_ANSWER_BYTES];
    bool timer = call.call == TILESORREL_TICK || call.call == TILESORREL_PLAN;
    memcpy(was, image, sizeof was);
    frame[0] = call.call;
    tilesorrel_put(frame + 1, 8, call.number);
    tilesorrel_put(frame + 9, 4, micros);
    if (step(image, sizeof was, frame, timer ? TILESORREL_TICK_BYTES : TILESORREL_SCHEDULE_BYTES, answer,
             sizeof answer) >= TILESORREL_REFUSED) {
        *slot = TILESORREL_NONE;
        return REFUSED;
    }
    return fault(was, image, frame, answer, slot);
}

/* Does calls up to the first that is none or is found to be wrong. Their ticks report a whole slice, so that even a
 * Ready task is given up. */
static const char *found_in(uint8_t *image, const struct call *calls, size_t count, unsigned *slot)
{
    const char *what = NULL;
    *slot = TILESORREL_NONE;
    for (size_t i = 0; i < count && calls[i].call != TILESORREL_CREATE && what == NULL; i += 1) {
        what = found_after(image, calls[i], SLICE, slot);
    }
    return what;
}

/* The image that the races begin with. */
static void start_race(uint8_t *image)
{
    static const struct call calls[] = {{TILESORREL_ENQUEUE, 0}, {TILESORREL_ENQUEUE, 1}, {TILESORREL_TICK, 0}};
    static const uint8_t bands[] = {TILESORREL_REAL_TIME_IO, TILESORREL_REAL_TIME_IO, TILESORREL_USER_INTERACTIVE};
    uint8_t answer[TILESORREL_ANSWER_BYTES];
    const char *what;
    unsigned slot;
    new_image(image, TILESORREL_IMAGE_BYTES);
    for (size_t i = 0; i < sizeof bands; i += 1) {
        const uint8_t frame[TILESORREL_CREATE_BYTES] = {TILESORREL_CREATE, 0, 0, 0, 0, bands[i]};
        step(image, TILESORREL_IMAGE_BYTES, frame, sizeof frame, answer, sizeof answer);
    }
    what = found_in(image, calls, sizeof calls / sizeof calls[0], &slot);
    check(what == NULL && image[TILESORREL_HOLDERS_AT] == 0, "core 0 does not run its slot before the races", slot);
}

/* Goes through a row, with or without what comes in between, and closes it with this call on its core, of 0
 * microseconds where it has any. Before that nothing is wrong; after it the watcher has to find these words, with the
 * slot that is lost, or nothing. */
static void try_row(const struct race *race, bool with_between, uint8_t closing, const char *words)
{
    const struct call last = {closing, race->core};
    uint8_t image[TILESORREL_IMAGE_BYTES];
    char told[160];
    unsigned slot;
    const char *what;
    start_race(image);
    what = found_in(image, race->row, ROW_CALLS, &slot);
    if (what == NULL && with_between) {
        what = found_in(image, race->between, CALLS_BETWEEN, &slot);
    }
    check(what == NULL, race->name, slot);
    what = found_after(image, last, 0, &slot);
    snprintf(told, sizeof told, "%s, %s a tick in between, %s: %s: slot", race->name, with_between ? "with" : "without",
             call_names[closing], what == NULL ? "nothing is found" : what);
    check(what == words && (words == NULL || slot == race->lost), told, slot);
}

/* Every row with every closing call. */
static void try_races(void)
{
    for (size_t i = 0; i < sizeof races / sizeof races[0]; i += 1) {
        try_row(&races[i], true, TILESORREL_SCHEDULE, ON_NO_CORE);
        try_row(&races[i], true, TILESORREL_TICK, NULL);
        try_row(&races[i], true, TILESORREL_PLAN, NULL);
        try_row(&races[i], false, TILESORREL_SCHEDULE, NULL);
    }
}

#endif
