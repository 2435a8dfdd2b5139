/*
 * The shape of a kernel around Tilesorrel: one image, one lock, and 64 threads that stand for the cores.
 *
 * Each core makes its calls in every period of 500 microseconds, mostly its timer's tick. After each call, before the
 * lock is given back, a watcher checks that the image is accepted and that no task is lost; it stands in watcher.h, and
 * a real kernel leaves it out. Which calls in a row would lose one is tried first, in races.h. The last line says how
 * many checks there were and how many failed. Status 0: none failed; 1: some did; 2: the cores could not start.
 */
#include "races.h"
#include "tilesorrel.h"
#include "watcher.h"
#include <pthread.h>
#include <stdbool.h>
#include <stdio.h>

enum {
    PERIODS = 2000, /* one second of the machine's time */
    PERIOD_MICROS = 500,
    BAND_CORES = 14,    /* what a band's 21 or 22 tasks may use, so that somebody waits */
    BAND_DISTANCE = 12, /* from a band's first core to the next band's: they share two cores */
    MOVE_PERIODS = 250, /* after so many periods all bands move on, one task in each period, */
    MOVE_CORES = 8,     /* by so many cores, so that every core comes to be used */
    TURNS = 64,         /* a core has a turn in each period, and at some it does something else than tick */
    TURNS_APART = 11,   /* from a core to the next, so that no two do it at once */
    SENSOR_TURNS = 16,  /* its slot's sensor comes up every so many turns */
    KICK_TURNS = 2,     /* it looks for a kick every so many, since that may come behind the timer's interrupt */
    BLOCK_TURN = 5,     /* the task that it runs waits for its sensor */
    YIELD_TURN = 21,
    END_TURN = 29,  /* its slot's task ends, wherever that task is, and a new one takes the slot */
    STOP_TURN = 37, /* its slot's task is stopped by a switch, wherever that task is */
    PLAN_TURN = 53
};

struct core {
    uint8_t number;
    uint8_t running; /* the slot whose context is loaded, or TILESORREL_NONE: idle */
    bool blocked;    /* that task waits for its sensor, and the core has yet to hand off */
    bool kicked;     /* it has yet to look who is to run; another core asked for that, so the lock guards it */
    uint8_t answer[TILESORREL_ANSWER_BYTES];
};

static struct core cores[TILESORREL_CORES];
static pthread_barrier_t end_of_period;

/* The scheduler: its state, and the lock that guards it. 'step' reads the whole image and writes it again, so two calls
 * at once would undo one another, or leave bytes that are no image. */
static uint8_t image[TILESORREL_IMAGE_BYTES];
static pthread_mutex_t lock = PTHREAD_MUTEX_INITIALIZER;

/* ---- Calls ---- */

/* The refusals that may come about, since no core waits for another: of a wake where nobody waits for the sensor, of a
 * block where the task is Blocked, of a yield where it was stopped or has ended, of a handoff where it has ended.
 * Nothing is to be done about them: in place of a stopped task the core's next tick takes another, and where its task
 * has ended the core was kicked. */
static bool may_be_refused(uint8_t call, uint8_t status)
{
    return (call == TILESORREL_WAKE && status == TILESORREL_NOT_BLOCKED) ||
           (call == TILESORREL_BLOCK && status == TILESORREL_ALREADY_BLOCKED) ||
           ((call == TILESORREL_YIELD || call == TILESORREL_HANDOFF) && status == TILESORREL_NO_SUCH_TASK);
}

/* Does a call for a core that has the lock. A real core has interrupts off here, and has saved its task's registers
 * before: once the lock is given back, another core may run that task. The answer goes to the core's own buffer, since
 * it is read after that. Returns TILESORREL_DONE or the number of the refusal, 1 to 9. */
static uint8_t ask(struct core *self, const uint8_t *frame, size_t length)
{
    uint64_t returned;
    uint8_t status;
    remember(image);
    returned = step(image, sizeof image, frame, length, self->answer, sizeof self->answer);
    status = self->answer[TILESORREL_STATUS_AT];
    if (returned >= TILESORREL_REFUSED) {
        status = (uint8_t)(returned - TILESORREL_REFUSED);
    }
    watch(image, self->number, frame, self->answer, status, may_be_refused(frame[0], status));
    return status;
}

/* Asks any call but create: behind the first byte stand a slot or a core, and microseconds, a mask or nothing. */
static uint8_t ask_about(struct core *self, uint8_t call, size_t length, uint8_t slot_or_core, uint64_t rest)
{
    uint8_t frame[TILESORREL_FRAME_BYTES];
    frame[0] = call;
    tilesorrel_put(frame + 1, 8, slot_or_core);
    tilesorrel_put(frame + 9, length - 9, rest);
    return ask(self, frame, length);
}

/* The same with a lock around it, for a call that needs no other in the same lock. */
static uint8_t ask_alone(struct core *self, uint8_t call, size_t length, uint8_t slot_or_core, uint64_t rest)
{
    uint8_t status;
    pthread_mutex_lock(&lock);
    status = ask_about(self, call, length, slot_or_core, rest);
    pthread_mutex_unlock(&lock);
    return status;
}

/* ---- Who runs ---- */

/* A core's tick says whom it is to run. A kernel would switch context here. */
static void tick(struct core *self, uint32_t micros)
{
    if (ask_alone(self, TILESORREL_TICK, TILESORREL_TICK_BYTES, self->number, micros) == TILESORREL_DONE) {
        self->running = self->answer[TILESORREL_VALUE_AT];
    }
}

/* Does what a plan says. A kernel would switch context here; the target's cr3 stands in the plan. */
static void follow_plan(struct core *self, uint8_t status)
{
    const uint8_t *plan = self->answer + TILESORREL_VALUE_AT;
    if (status == TILESORREL_DONE && plan[0] == TILESORREL_PLAN_SWITCH) {
        self->running = plan[TILESORREL_PLAN_TARGET_AT];
    }
}

/* Has a core look who is to run, after this call; the caller has the lock. A kernel sends it an interrupt, and counts
 * none. The core asks for itself: only there are the registers of the task saved that it may have to give up. */
static void kick(uint8_t core, uint8_t call)
{
    if (core != TILESORREL_NONE) {
        cores[core].kicked = true;
        kicks_after[call] += 1;
    }
}

/* Whether a core was kicked since it last looked. */
static bool was_kicked(struct core *self)
{
    bool kicked;
    pthread_mutex_lock(&lock);
    kicked = self->kicked;
    self->kicked = false;
    pthread_mutex_unlock(&lock);
    return kicked;
}

/* ---- Tasks ---- */

/* The cores that a slot may use from a period on. While some slots have moved and some have not, a queue has tasks for
 * different cores, and a pick has to pass over those that may not use its core. */
static uint64_t mask_for(uint8_t slot, unsigned period)
{
    unsigned first = slot % TILESORREL_BANDS * BAND_DISTANCE + period / MOVE_PERIODS * MOVE_CORES;
    uint64_t mask = 0;
    for (unsigned i = 0; i < BAND_CORES; i += 1) {
        mask |= (uint64_t)1 << (first + i) % TILESORREL_CORES;
    }
    return mask;
}

/* Makes a task in a slot, which has to be the lowest that is free, and lets it wait in its queue. */
static void make_task(struct core *self, uint8_t slot, unsigned period)
{
    uint8_t frame[TILESORREL_CREATE_BYTES] = {TILESORREL_CREATE};
    tilesorrel_put(frame + 1, 4, slot);                    /* tid */
    tilesorrel_put(frame + 5, 1, slot % TILESORREL_BANDS); /* band; context, cr3 and rsp0 stay 0 */
    pthread_mutex_lock(&lock);
    ask(self, frame, sizeof frame);
    check(self->answer[TILESORREL_VALUE_AT] == slot, "a new task does not have the free slot", slot);
    pthread_mutex_unlock(&lock);
    ask_alone(self, TILESORREL_AFFINITY, TILESORREL_AFFINITY_BYTES, slot, mask_for(slot, period));
    ask_alone(self, TILESORREL_ENQUEUE, TILESORREL_ENQUEUE_BYTES, slot, 0);
}

/* Ends a slot's task, and kicks the core that held it. Both calls are made in one lock: in between, that core might
 * give the task up and another pick it, and the other would not be kicked. */
static void end_task(struct core *self, uint8_t slot)
{
    uint8_t holder;
    pthread_mutex_lock(&lock);
    ask_about(self, TILESORREL_HOLDER, TILESORREL_HOLDER_BYTES, slot, 0);
    holder = self->answer[TILESORREL_VALUE_AT];
    ask_about(self, TILESORREL_TERMINATE, TILESORREL_TERMINATE_BYTES, slot, 0);
    kick(holder, TILESORREL_TERMINATE);
    pthread_mutex_unlock(&lock);
}

/* An idle core for a slot's task, if it waits and may use one that was not kicked yet; else TILESORREL_NONE. The caller
 * has the lock, so that it may read the image. */
static uint8_t idle_core_for(uint8_t slot)
{
    const uint8_t *record = image + TILESORREL_RECORDS_AT + slot * TILESORREL_RECORD_BYTES;
    uint64_t mask = tilesorrel_get(record + TILESORREL_MASK_AT, 8);
    for (uint8_t core = 0; core < TILESORREL_CORES && record[TILESORREL_STATE_AT] == TILESORREL_READY; core += 1) {
        bool idle = image[TILESORREL_HOLDERS_AT + core] == TILESORREL_NONE;
        if (idle && (mask >> core & 1) == 1 && !cores[core].kicked) {
            return core;
        }
    }
    return TILESORREL_NONE;
}

/* Wakes a slot's task, and kicks an idle core for it. */
static void wake_task(struct core *self, uint8_t slot)
{
    pthread_mutex_lock(&lock);
    if (ask_about(self, TILESORREL_WAKE, TILESORREL_WAKE_BYTES, slot, 0) == TILESORREL_DONE) {
        kick(idle_core_for(slot), TILESORREL_WAKE);
    }
    pthread_mutex_unlock(&lock);
}

/* Whether a core still holds the task that it runs. The caller has the lock, so that it may read the image. */
static bool holds_running(const struct core *self)
{
    return image[TILESORREL_HOLDERS_AT + self->number] == self->running;
}

/* Blocks the task that a core runs; it is handed off next. Where the core holds it no more, it ended a moment ago, and
 * the core was kicked; by now its slot may be a new task's, which is not to wait for this one's sensor. */
static void block_running(struct core *self)
{
    pthread_mutex_lock(&lock);
    if (holds_running(self)) {
        ask_about(self, TILESORREL_BLOCK, TILESORREL_BLOCK_BYTES, self->running, 0);
        self->blocked = true;
    }
    pthread_mutex_unlock(&lock);
}

/* ---- Cores ---- */

/* Checks that a core runs whom it holds, or has been kicked to look. */
static void check_running(const struct core *self)
{
    pthread_mutex_lock(&lock);
    check(self->kicked || holds_running(self), "does not run whom it holds: core", self->number);
    pthread_mutex_unlock(&lock);
}

/* A core's call for itself. Where it was kicked, that is a tick of 0 microseconds. Its timer's tick may have come
 * first, between the kick and this, and have given it a task; then that task goes on, or back to its queue where one of
 * an earlier band waits. A schedule would lose it. */
static void serve_core(struct core *self, unsigned turn)
{
    uint8_t number = self->number;
    check_running(self);
    if (turn % KICK_TURNS == 0 && was_kicked(self)) {
        tick(self, 0);
        self->blocked = false;
    } else if (self->blocked) {
        follow_plan(self, ask_alone(self, TILESORREL_HANDOFF, TILESORREL_HANDOFF_BYTES, number, 0));
        self->blocked = false;
    } else if (turn == BLOCK_TURN && self->running != TILESORREL_NONE) {
        block_running(self);
    } else if (turn == YIELD_TURN) {
        follow_plan(self, ask_alone(self, TILESORREL_YIELD, TILESORREL_YIELD_BYTES, number, 0));
    } else if (turn == PLAN_TURN) {
        follow_plan(self, ask_alone(self, TILESORREL_PLAN, TILESORREL_PLAN_BYTES, number, PERIOD_MICROS));
    } else {
        tick(self, PERIOD_MICROS);
    }
}

/* What a core does in a period: as many calls in every run, since for itself it makes one; a real timer would tick
 * besides. Core N also looks after slot N: it sets the slot's mask, has the sensor that wakes its task and the switch
 * that stops it, and ends it. */
static void serve(struct core *self, unsigned period)
{
    uint8_t slot = self->number;
    unsigned turn = (period + TURNS_APART * slot) % TURNS;
    if (period % MOVE_PERIODS == slot) {
        ask_alone(self, TILESORREL_AFFINITY, TILESORREL_AFFINITY_BYTES, slot, mask_for(slot, period));
    } else if (turn % SENSOR_TURNS == 0) {
        wake_task(self, slot);
    } else if (turn == STOP_TURN) {
        ask_alone(self, TILESORREL_BLOCK, TILESORREL_BLOCK_BYTES, slot, 0);
    } else if (turn == END_TURN) {
        end_task(self, slot);
        make_task(self, slot, period);
    } else {
        serve_core(self, turn);
    }
}

/* A core's thread. Nobody sleeps: a period ends when every core has made its calls, so that no core's time is ahead. */
static void *run_core(void *argument)
{
    for (unsigned period = 0; period < PERIODS; period += 1) {
        serve(argument, period);
        pthread_barrier_wait(&end_of_period);
    }
    return NULL;
}

/* A task in every slot, the bands in turn, each waiting in its queue; and cores that are idle. */
static void start(void)
{
    for (uint8_t i = 0; i < TILESORREL_CORES; i += 1) {
        cores[i].number = i;
        cores[i].running = TILESORREL_NONE;
    }
    for (uint8_t slot = 0; slot < TILESORREL_SLOTS; slot += 1) {
        make_task(&cores[0], slot, 0);
    }
}

int main(void)
{
    pthread_t threads[TILESORREL_CORES];
    if (new_image(image, sizeof image) != 0 || pthread_barrier_init(&end_of_period, NULL, TILESORREL_CORES) != 0) {
        return 2;
    }
    start();
    try_watcher(image);
    try_races();
    for (unsigned i = 0; i < TILESORREL_CORES; i += 1) {
        if (pthread_create(&threads[i], NULL, run_core, &cores[i]) != 0) {
            return 2;
        }
    }
    for (unsigned i = 0; i < TILESORREL_CORES; i += 1) {
        pthread_join(threads[i], NULL);
    }
    printf("%u cores, %u periods of %u microseconds: ", TILESORREL_CORES, PERIODS, PERIOD_MICROS);
    return conclude();
}
