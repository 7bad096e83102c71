/* Three guest programs of a carving machine on a simulated clock: how a host runs the kernel. Prints a timeline.
 *
 * The tracer reads a point of the pattern each time its timer fires. The cutter waits until there is a point to cut, takes
 * the spindle and cuts it. The turntable turns the workpiece every three milliseconds if it gets the spindle in time.
 * A guest program here is a function that is called when its thread has the core and makes one guest call. */
#include "kernel.h"

#include <stdarg.h>
#include <stdio.h>
#include <string.h>

enum { BASE = 0x100000, POINTS = BASE, THREADS = 4 };

static const uint64_t TICKS_PER_MILLISECOND = KERNEL_TICKS_PER_SECOND / 1000;
static const uint64_t END = 12 * (KERNEL_TICKS_PER_SECOND / 1000);
/* what a guest does between two calls */
static const uint64_t WORK = 2000;

/* Everything that the host lends. */
static uint8_t block[KERNEL_BLOCK_LEN], bank[KERNEL_BANK_LEN], processor[KERNEL_PROCESSOR_LEN], window[64];
static uint64_t tick;

/* What the guests know of each other. */
static uint32_t spindle, pulse, points;

static uint32_t get32(const uint8_t *b, uint32_t at)
{
    return b[at] | b[at + 1] << 8 | b[at + 2] << 16 | (uint32_t)b[at + 3] << 24;
}

static void put32(uint8_t *b, uint32_t at, uint32_t v)
{
    for (uint32_t i = 0; i < 4; i++)
        b[at + i] = (uint8_t)(v >> 8 * i);
}

/* ---- the host */

static void fail(const char *what, uint32_t number)
{
    printf("%s: %u\n", what, number);
    fflush(stdout);
    _Exit(1);
}

/* A guest call of the current thread: registers in, r0 and r1 out. */
static uint32_t call(uint32_t number, uint32_t r0, uint32_t r1, uint32_t r2, uint32_t r3, uint32_t r4, uint32_t r5)
{
    uint32_t r[6] = {r0, r1, r2, r3, r4, r5};
    for (uint32_t i = 0; i < 6; i++)
        put32(processor, 4 * i, r[i]);
    uint32_t answer = kernel_dispatch(block, sizeof block, bank, sizeof bank, processor, sizeof processor, window, sizeof window, BASE, number, tick);
    if (!KERNEL_ACCEPTED(answer))
        fail("a guest call was refused", answer);
    return answer;
}

/* A call that makes an object: its handle is in r1. */
static uint32_t make(uint32_t number, uint32_t r0, uint32_t r1, uint32_t r2, uint32_t r3, uint32_t r4)
{
    uint32_t answer = call(number, r0, r1, r2, r3, r4, 0);
    if (answer != KERNEL_DONE)
        fail("nothing was made", answer);
    return get32(processor, 4);
}

/* One line of the timeline: microseconds, the thread, what happened. */
static void say(const char *who, const char *what, ...)
{
    va_list list;
    va_start(list, what);
    printf("%6llu us  %-9s  ", (unsigned long long)(tick * 1000 / TICKS_PER_MILLISECOND), who);
    vprintf(what, list);
    printf("\n");
    va_end(list);
}

/* ---- the guests; step is where each one is, result what its wait gave, KERNEL_RESULT_.. */

static uint32_t step[THREADS];

static const uint32_t FOREVER = 0xFFFFFFFF;

static void tracer(uint32_t result)
{
    uint32_t *at = &step[1];
    /* without a time-out its wait ends only when the timer fired, at once or later */
    (void)result;
    switch (*at) {
    case 0:
        /* the first point after a millisecond, then one every two */
        call(KERNEL_CALL_SET_TIMER, pulse, 2000000, 1000000, 0, 0, 0);
        say("tracer", "sets its timer: a point every 2 ms");
        *at = 1;
        break;
    case 1:
        call(KERNEL_CALL_WAIT_SYNCHRONIZATION1, pulse, 0, FOREVER, FOREVER, 0, 0);
        *at = 2;
        break;
    case 2:
        put32(window, POINTS - BASE, get32(window, POINTS - BASE) + 1);
        say("tracer", "reads point %u", get32(window, POINTS - BASE));
        /* wakes the cutter if it waits for points */
        call(KERNEL_CALL_ARBITRATE_ADDRESS, points, POINTS, KERNEL_ARBITRATION_SIGNAL, 1, 0, 0);
        *at = 1;
        break;
    }
}

static void cutter(uint32_t result)
{
    static uint32_t cut;
    uint32_t *at = &step[2];
    (void)result;
    switch (*at) {
    case 0:
        /* parks while the points are fewer than the next to cut */
        call(KERNEL_CALL_ARBITRATE_ADDRESS, points, POINTS, KERNEL_ARBITRATION_WAIT_IF_LESS_THAN, cut + 1, 0, 0);
        *at = 1;
        break;
    case 1:
        call(KERNEL_CALL_WAIT_SYNCHRONIZATION1, spindle, 0, FOREVER, FOREVER, 0, 0);
        *at = 2;
        break;
    case 2:
        say("cutter", "has the spindle, cuts point %u", ++cut);
        call(KERNEL_CALL_SLEEP_THREAD, 1200000, 0, 0, 0, 0, 0);
        *at = 3;
        break;
    case 3:
        say("cutter", "point %u is cut, lets go of the spindle", cut);
        call(KERNEL_CALL_RELEASE_MUTEX, spindle, 0, 0, 0, 0, 0);
        *at = 0;
        break;
    }
}

static void turntable(uint32_t result)
{
    uint32_t *at = &step[3];
    switch (*at) {
    case 0:
        call(KERNEL_CALL_SLEEP_THREAD, 3000000, 0, 0, 0, 0, 0);
        *at = 1;
        break;
    case 1:
        say("turntable", "wants the spindle, for half a millisecond");
        /* 17 cannot come: the time is not 0 */
        call(KERNEL_CALL_WAIT_SYNCHRONIZATION1, spindle, 0, 500000, 0, 0, 0);
        *at = 2;
        break;
    case 2:
        if (result == KERNEL_RESULT_TIMED_OUT) {
            say("turntable", "did not get it, skips a turn");
            *at = 0;
            turntable(0);
            break;
        }
        say("turntable", "has the spindle, turns");
        call(KERNEL_CALL_SLEEP_THREAD, 400000, 0, 0, 0, 0, 0);
        *at = 3;
        break;
    case 3:
        say("turntable", "has turned, lets go of the spindle");
        call(KERNEL_CALL_RELEASE_MUTEX, spindle, 0, 0, 0, 0, 0);
        *at = 0;
        break;
    }
}

/* The first thread makes what the others share, then the others, and ends. */
static void first(uint32_t result)
{
    (void)result;
    spindle = make(KERNEL_CALL_CREATE_MUTEX, 0, 0, 0, 0, 0);
    pulse = make(KERNEL_CALL_CREATE_TIMER, 0, 0, 0, 0, 0);
    points = make(KERNEL_CALL_CREATE_ADDRESS_ARBITER, 0, 0, 0, 0, 0);
    make(KERNEL_CALL_CREATE_THREAD, 20, 0x2000, 0, 0x8000, 0);
    make(KERNEL_CALL_CREATE_THREAD, 30, 0x3000, 0, 0x9000, 0);
    make(KERNEL_CALL_CREATE_THREAD, 40, 0x4000, 0, 0xA000, 0);
    say("first", "makes the spindle, a timer, an arbiter and three threads, and ends");
    call(KERNEL_CALL_EXIT_THREAD, 0, 0, 0, 0, 0, 0);
}

static void (*const program[THREADS])(uint32_t) = {first, tracer, cutter, turntable};

/* ---- the loop */

/* The tick at which the kernel wants a pass; none ends the run. */
static int next_event(uint64_t *at)
{
    uint8_t answer[KERNEL_NEXT_EVENT_LEN];
    if (kernel_next_event(block, sizeof block, answer, sizeof answer) != KERNEL_DONE)
        fail("next_event", 0);
    *at = get32(answer, KERNEL_NEXT_EVENT_TICK_AT) | (uint64_t)get32(answer, KERNEL_NEXT_EVENT_TICK_AT + 4) << 32;
    return get32(answer, KERNEL_NEXT_EVENT_FOUND_AT) == 1;
}

/* The reservation of an exclusive load (exclusive_addr) does not outlive a switch to a thread. These guests make none. */
static void drop_exclusive_reservation(void)
{
}

int main(void)
{
    uint8_t number[KERNEL_CREATE_THREAD_LEN], switched[KERNEL_SCHEDULE_LEN], wait[KERNEL_COLLECT_LEN];
    if (kernel_fresh_start(block, sizeof block, bank, sizeof bank, 0x10) != KERNEL_DONE)
        fail("fresh_start", 0);
    if (kernel_create_thread(block, sizeof block, bank, sizeof bank, number, sizeof number, 0x1000, 0x7000, 0, 10, 0) != KERNEL_DONE)
        fail("create_thread", 0);
    while (tick < END) {
        /* the pass: who is due wakes, and the most urgent gets the core; its context is in the processor then */
        uint32_t answer = kernel_schedule(block, sizeof block, bank, sizeof bank, processor, sizeof processor, switched, sizeof switched, tick);
        if (answer != KERNEL_DONE)
            fail("schedule", answer);
        /* what the wait of the thread that runs gave, handed out once; nobody runs: on to the next tick that matters */
        answer = kernel_collect(block, sizeof block, wait, sizeof wait);
        if (answer == KERNEL_NO_THREAD) {
            if (!next_event(&tick))
                break;
            continue;
        }
        if (answer != KERNEL_DONE)
            fail("collect", answer);
        /* the pass switched and a thread is current */
        if (get32(switched, KERNEL_SCHEDULE_SWITCHED_AT))
            drop_exclusive_reservation();
        /* the TLS slot tells the thread; the guest runs until its next call */
        uint32_t thread = get32(processor, 4 * KERNEL_CONTEXT_TLS);
        tick += WORK;
        program[thread](get32(wait, KERNEL_COLLECT_RESULT_AT));
    }
    return 0;
}
