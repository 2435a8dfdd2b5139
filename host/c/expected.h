/*
 * The host's image, and beside it the image that document 01 expects after each call, which check.c changes by hand.
 */
#ifndef EXPECTED_H
#define EXPECTED_H

#include "frames.h"
#include "tilesorrel.h"
#include <string.h>

/* Bytes behind image and answer buffer that nobody may write. */
#define BEHIND 16

#define ALL_CORES UINT64_MAX

static uint8_t image[TILESORREL_IMAGE_BYTES + BEHIND];
static uint8_t expected[TILESORREL_IMAGE_BYTES + BEHIND];

/* ---- Where something stands in the image ---- */

static size_t record(unsigned slot)
{
    return TILESORREL_RECORDS_AT + (size_t)slot * TILESORREL_RECORD_BYTES;
}

static size_t queue(unsigned band)
{
    return TILESORREL_QUEUES_AT + (size_t)band * TILESORREL_QUEUE_BYTES;
}

static size_t holder(unsigned core)
{
    return TILESORREL_HOLDERS_AT + (size_t)core;
}

static void expect_field(unsigned slot, size_t at, size_t bytes, uint64_t number)
{
    tilesorrel_put(expected + record(slot) + at, bytes, number);
}

static void expect_state(unsigned slot, unsigned state)
{
    expect_field(slot, TILESORREL_STATE_AT, 1, state);
}

/* A queue's entries from front to tail, a digit each. */
static void expect_queue(unsigned band, const char *slots)
{
    uint8_t *at = expected + queue(band);
    size_t length = strlen(slots), i;
    memset(at, 0, TILESORREL_QUEUE_BYTES);
    at[0] = (uint8_t)length;
    for (i = 0; i < length; i += 1) {
        at[1 + i] = (uint8_t)(slots[i] - '0');
    }
}

static void expect_holder(unsigned core, unsigned slot)
{
    expected[holder(core)] = (uint8_t)slot;
}

static void expect_micros(uint64_t micros)
{
    tilesorrel_put(expected + TILESORREL_MICROS_AT, 8, micros);
}

/* What rule P does to the record that it picks, and to the core. */
static void expect_picked(unsigned core, unsigned slot)
{
    static const uint64_t slices[TILESORREL_BANDS] = {2000, 5000, 20000};
    expect_state(slot, TILESORREL_RUNNING);
    expect_field(slot, TILESORREL_BUDGET_AT, 4, slices[expected[record(slot) + TILESORREL_BAND_AT]]);
    expect_field(slot, TILESORREL_CONSUMED_AT, 4, 0);
    expect_holder(core, slot);
}

/* The record that the last create makes. */
static void expect_created(unsigned slot)
{
    expect_field(slot, TILESORREL_TID_AT, 4, created_tid);
    expect_field(slot, TILESORREL_BAND_AT, 1, created_band);
    expect_field(slot, TILESORREL_STATE_AT, 1, TILESORREL_BLOCKED);
    expect_field(slot, TILESORREL_CONTEXT_AT, 8, created_context);
    expect_field(slot, TILESORREL_CR3_AT, 8, cr3_of(created_context));
    expect_field(slot, TILESORREL_RSP0_AT, 8, rsp0_of(created_context));
    expect_field(slot, TILESORREL_MASK_AT, 8, ALL_CORES);
    expect_field(slot, TILESORREL_BUDGET_AT, 4, 0);
    expect_field(slot, TILESORREL_CONSUMED_AT, 4, 0);
    expect_field(slot, TILESORREL_IN_USE_AT, 1, 1);
}

/* Other fields stay. */
static void expect_terminated(unsigned slot)
{
    expect_state(slot, TILESORREL_TERMINATED);
    expect_field(slot, TILESORREL_IN_USE_AT, 1, 0);
}

/* New: all records empty, queues empty, no holders, 0. */
static void expect_new(void)
{
    unsigned slot;
    memset(expected, 0, TILESORREL_IMAGE_BYTES);
    for (slot = 0; slot < TILESORREL_SLOTS; slot += 1) {
        expect_field(slot, TILESORREL_BAND_AT, 1, TILESORREL_BACKGROUND);
        expect_field(slot, TILESORREL_STATE_AT, 1, TILESORREL_TERMINATED);
        expect_field(slot, TILESORREL_MASK_AT, 8, ALL_CORES);
    }
    memset(expected + TILESORREL_HOLDERS_AT, TILESORREL_NONE, TILESORREL_CORES);
}

/* The same bytes in the image and in what is expected of it. */
static void put_both(size_t at, size_t bytes, uint64_t number)
{
    tilesorrel_put(image + at, bytes, number);
    tilesorrel_put(expected + at, bytes, number);
}

#endif
