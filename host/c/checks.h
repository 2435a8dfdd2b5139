/* A call that is passed to `step`, and all that can be seen of it compared with what is expected, byte by byte. */
#ifndef CHECKS_H
#define CHECKS_H

#include "expected.h"
#include "frames.h"
#include "tilesorrel.h"
#include <stdio.h>
#include <string.h>

static unsigned long checks;
static unsigned long failed;

static void check_number(const char *what, const char *of, uint64_t is, uint64_t should)
{
    checks += 1;
    if (is != should) {
        failed += 1;
        fprintf(stderr, "%s: %s is %lu, and should be %lu\n", what, of, (unsigned long)is, (unsigned long)should);
    }
}

static void check_bytes(const char *what, const char *of, const uint8_t *are, const uint8_t *should, size_t bytes)
{
    size_t i = 0;
    checks += 1;
    while (i < bytes && are[i] == should[i]) {
        i += 1;
    }
    if (i < bytes) {
        failed += 1;
        fprintf(stderr, "%s: byte %lu of %s is %02x, and should be %02x\n", what, (unsigned long)i, of, are[i],
                should[i]);
    }
}

/* Passes the frame with a buffer of this length, and checks what is returned, the buffer with the bytes behind it, the
 * image with the bytes behind it, and that the frame is as it was. A byte written where none should be may be the mark
 * by chance: so there are two marks, which take turns. */
static void check_step(const char *what, size_t image_len, size_t answer_len, uint64_t returned, const uint8_t *told,
                       size_t told_len)
{
    static unsigned turn;
    uint8_t answer[2 * TILESORREL_ANSWER_BYTES + BEHIND], should[sizeof answer], asked[sizeof frame];
    turn += 1;
    memset(answer, turn % 2 == 0 ? 0x5a : 0xa5, sizeof answer);
    memcpy(should, answer, sizeof answer);
    memcpy(should, told, told_len);
    memcpy(asked, frame, sizeof frame);
    check_number(what, "what is returned", step(image, image_len, frame, frame_len, answer, answer_len), returned);
    check_bytes(what, "the answer buffer", answer, should, sizeof answer);
    check_bytes(what, "the image", image, expected, sizeof image);
    check_bytes(what, "the frame", frame, asked, sizeof frame);
}

/* The call is made, in a buffer that just suffices or, two calls later, in a longer one: with either mark. */
static void check_answer(const char *what, const uint8_t *told, size_t told_len)
{
    static unsigned turn;
    size_t more = turn / 2 % 2 == 0 ? 0 : TILESORREL_ANSWER_BYTES;
    turn += 1;
    check_number(what, "the frame's length", frame_len, frame_bytes(frame[0]));
    check_step(what, TILESORREL_IMAGE_BYTES, TILESORREL_ANSWER_BYTES + more, told_len, told, told_len);
}

/* The call is answered with these bytes. */
static void answered(const char *what, const char *digits)
{
    uint8_t told[TILESORREL_ANSWER_BYTES];
    check_answer(what, told, bytes_of(digits, told));
}

/* The call is answered with a slot's record. */
static void answered_record(const char *what, unsigned slot)
{
    uint8_t told[TILESORREL_ANSWER_BYTES];
    size_t head = bytes_of("00ffff 01", told);
    memcpy(told + head, expected + record(slot), TILESORREL_RECORD_BYTES);
    check_answer(what, told, head + TILESORREL_RECORD_BYTES);
}

/* The call is answered with a pick, and a plan to switch to it. */
static void answered_switch(const char *what, uint8_t band, uint8_t previous, uint8_t target)
{
    uint8_t told[TILESORREL_ANSWER_BYTES], *plan = told + TILESORREL_VALUE_AT;
    told[TILESORREL_STATUS_AT] = TILESORREL_DONE;
    told[TILESORREL_PICK_SLOT_AT] = target;
    told[TILESORREL_PICK_BAND_AT] = band;
    plan[0] = TILESORREL_PLAN_SWITCH;
    plan[TILESORREL_PLAN_PREVIOUS_AT] = previous;
    plan[TILESORREL_PLAN_TARGET_AT] = target;
    memcpy(plan + TILESORREL_PLAN_CR3_AT, expected + record(target) + TILESORREL_CR3_AT, 8);
    check_answer(what, told, TILESORREL_VALUE_AT + TILESORREL_PLAN_CR3_AT + 8);
}

/* The call is refused with 1 to 6: an answer of the number and no pick. */
static void refused(const char *what, uint8_t number)
{
    uint8_t told[TILESORREL_VALUE_AT];
    told[TILESORREL_STATUS_AT] = number;
    told[TILESORREL_PICK_SLOT_AT] = TILESORREL_NONE;
    told[TILESORREL_PICK_BAND_AT] = TILESORREL_NONE;
    check_answer(what, told, sizeof told);
}

/* No call is made: 7, 8 or 9. */
static void not_called(const char *what, unsigned number, size_t image_len, size_t answer_len)
{
    check_step(what, image_len, answer_len, TILESORREL_REFUSED + number, frame, 0);
}

/* The image is not accepted with this number there, and stays as it is; then it is mended. */
static void damaged(const char *what, size_t at, size_t bytes, uint64_t number)
{
    uint64_t before = tilesorrel_get(image + at, bytes);
    put_both(at, bytes, number);
    not_called(what, TILESORREL_NOT_ACCEPTED, TILESORREL_IMAGE_BYTES, TILESORREL_ANSWER_BYTES);
    put_both(at, bytes, before);
}

static int all_checked(void)
{
    printf("%lu checks, %lu failed\n", checks, failed);
    return failed == 0 ? 0 : 1;
}

#endif
