/* Waits on twelve handles, the most that a list has, and on thirteen; what kernel_satisfied_now finds for so many. */
#include "check.h"
#include "guest_call.h"
#include "host.h"
#include "kernel.h"
#include "layout.h"
#include "lent.h"
#include "made_block.h"

#include <string.h>

_Static_assert(LIST == KERNEL_WAIT_LIST, "a record has a place for each handle of a wait");
_Static_assert(THREAD_SPARE <= THREAD_LEN, "the list is in its record");
_Static_assert(KERNEL_SATISFIED_NOW_LEN == KERNEL_SATISFIED_NOW_OBJECTS_AT + 4 * KERNEL_SATISFIED_NOW_LIST,
               "the answer has a place for each handle that is looked at");
_Static_assert(4 * (LIST + 1) <= WINDOW, "thirteen handles are in the window");

/* A millisecond is 268,111 ticks. */
enum { FIRST = KERNEL_FIRST_HANDLE, START = 1000, MILLISECOND = 1000000, WAKE = START + 268111 };
static const uint64_t FOREVER = UINT64_MAX;

/* Everything that is lent for a pass but the block. Their bytes are compared in tests/schedule.c. */
static uint8_t bank[KERNEL_BANK_LEN], processor[KERNEL_PROCESSOR_LEN];

/* ---- blocks: thread 0 runs, thread 1 is ready and less urgent */

/* As many events as a list has, objects 1, 2, .. with the handles FIRST, FIRST + 1, ..: one-shot and sticky in turn,
   the last a pulse. */
static void with_events(uint8_t *block)
{
    running_block(block);
    for (uint32_t event = 1; event <= LIST; event++) {
        uint32_t at = slot_at(add_object(block, EVENT));
        uint32_t in_turn = event % 2 ? KERNEL_RESET_ONE_SHOT : KERNEL_RESET_STICKY;
        put32(block, at + A, event == LIST ? KERNEL_RESET_PULSE : in_turn);
        add_handle(block, event);
    }
}

/* Thread 0 waits on all objects of the list, each of them held once more. */
static void park(uint8_t *block, uint32_t all)
{
    put32(block, thread_at(0) + STATUS, WAIT_SYNC);
    put32(block, thread_at(0) + WAIT_ALL, all);
    put32(block, thread_at(0) + WAIT_SYSCALL, KERNEL_WAIT_SYSCALL_WAIT_SYNCHRONIZATION_N);
    for (uint32_t object = 1; object <= LIST; object++)
        wait_on(block, thread_at(0), object);
}

/* A pass found thread 0 waiting and gave the core to thread 1. */
static void leave_core(uint8_t *block)
{
    put32(block, thread_at(0) + WAITED, 1);
    put32(block, thread_at(1) + STATUS, RUNNING);
    make_current(block, 1);
}

/* On a block from before the wait: a pass ended it with this result, and thread 0 runs again. */
static void put_result(uint8_t *block, uint64_t tick, uint32_t result, uint32_t index)
{
    put32(block, thread_at(0) + WAIT_RESULT, result);
    put32(block, thread_at(0) + WAIT_INDEX, index);
    put32(block, thread_at(0) + WAIT_SYSCALL, KERNEL_WAIT_SYSCALL_WAIT_SYNCHRONIZATION_N);
    put64(block, thread_at(0) + RUNNING_SINCE, tick);
}

/* ---- operations */

/* A wait on the first n handles. */
static struct call wait_call(uint32_t n, uint32_t all, uint64_t nanoseconds)
{
    struct call c = {
        .number = KERNEL_CALL_WAIT_SYNCHRONIZATION_N, .reads = R0 | R1 | R2 | R3 | R4,
        .regs = {(uint32_t)nanoseconds, BASE, n, all, (uint32_t)(nanoseconds >> 32)}, .tick = START,
    };
    for (uint32_t i = 0; i < n; i++)
        c.words[i] = FIRST + i;
    return c;
}

static void same_block(const uint8_t *block, const uint8_t *expected, const char *what)
{
    size_t at = 0;
    while (at < KERNEL_BLOCK_LEN && block[at] == expected[at])
        at++;
    check(at == KERNEL_BLOCK_LEN, "%s: byte %zu differs", what, at);
}

/* The block becomes what a pass leaves, which is to be `after`. */
static void passes(uint8_t *block, uint64_t tick, const char *what, uint32_t expected, const uint8_t *after,
                   uint32_t switched)
{
    uint8_t answer[KERNEL_SCHEDULE_LEN];
    put32(answer, 0, 99);
    uint32_t number = kernel_schedule(block, KERNEL_BLOCK_LEN, bank, sizeof bank, processor, sizeof processor, answer,
                                      sizeof answer, tick);
    check(number == expected, "%s: answer %u, not %u", what, number, expected);
    check(get32(answer, 0) == (expected == KERNEL_DONE ? switched : 99), "%s: switched %u", what, get32(answer, 0));
    same_block(block, after, what);
}

static void collects(uint8_t *block, const char *what, uint32_t result, uint32_t index)
{
    uint8_t answer[KERNEL_COLLECT_LEN] = {0};
    uint32_t number = kernel_collect(block, KERNEL_BLOCK_LEN, answer, sizeof answer);
    uint32_t given = get32(answer, KERNEL_COLLECT_RESULT_AT), at = get32(answer, KERNEL_COLLECT_INDEX_AT);
    uint32_t call = get32(answer, KERNEL_COLLECT_SYSCALL_AT);
    check(number == KERNEL_DONE, "%s: collect answers %u", what, number);
    check(given == result && at == index && call == KERNEL_WAIT_SYSCALL_WAIT_SYNCHRONIZATION_N,
          "%s: collected %u, %u, %u", what, given, at, call);
}

/* Thread 1 signals an event that thread 0 waits on, which marks a pulse. */
static void signals(uint8_t *block, uint32_t event)
{
    uint8_t after[KERNEL_BLOCK_LEN];
    struct call c = {.number = KERNEL_CALL_SIGNAL_EVENT, .reads = R0, .regs = {FIRST + event - 1}, .tick = START};
    memcpy(after, block, sizeof after);
    put32(after, slot_at(event) + B, 1);
    put32(after, slot_at(event) + PULSED, get32(block, slot_at(event) + A) == KERNEL_RESET_PULSE);
    calls(block, &c, "an event is signalled", answered(KERNEL_DONE, after, R0, 0));
    memcpy(block, after, sizeof after);
}

static void asked(const uint8_t *block, const char *what, uint32_t expected)
{
    uint8_t answer[KERNEL_NEXT_EVENT_LEN];
    uint32_t number = kernel_next_event(block, KERNEL_BLOCK_LEN, answer, sizeof answer);
    check(number == expected, "%s: answer %u, not %u", what, number, expected);
}

/* The next event is at WAKE, or there is none. */
static void next_event(const uint8_t *block, const char *what, uint32_t found)
{
    uint8_t answer[KERNEL_NEXT_EVENT_LEN];
    uint32_t number = kernel_next_event(block, KERNEL_BLOCK_LEN, answer, sizeof answer);
    uint32_t seen = get32(answer, KERNEL_NEXT_EVENT_FOUND_AT);
    uint64_t tick = get64(answer, KERNEL_NEXT_EVENT_TICK_AT);
    check(number == KERNEL_DONE, "%s: next event answers %u", what, number);
    check(seen == found && tick == (found ? WAKE : 0), "%s: next event %u at %llu", what, seen,
          (unsigned long long)tick);
}

/* ---- runs */

/* Question 2: twelve places, which may all be used, and the bytes after them, which may not. */
static void places(void)
{
    group("twelve handles, the list of a record");
    uint8_t block[KERNEL_BLOCK_LEN], other[KERNEL_BLOCK_LEN];
    with_events(block);
    park(block, 1);
    const uint32_t thread = thread_at(0), last = thread + WAIT_OBJECTS + 4 * (LIST - 1);
    check(get32(block, last) == LIST, "the last place names object %u", get32(block, last));
    asked(block, "twelve places", KERNEL_DONE);
    memcpy(other, block, sizeof block);
    wait_on(other, thread, 1);
    asked(other, "thirteen places", KERNEL_UNSOUND);
    memcpy(other, block, sizeof block);
    put32(other, thread + WAIT_COUNT, LIST + 1);
    asked(other, "a count of thirteen", KERNEL_UNSOUND);
    memcpy(other, block, sizeof block);
    put32(other, last, OBJECTS);
    asked(other, "a dead slot in the last place", KERNEL_UNSOUND);
    memcpy(other, block, sizeof block);
    put32(other, thread + WAIT_COUNT, LIST - 1);
    put32(other, slot_at(LIST) + REFCOUNT, 1);
    asked(other, "a name after eleven places", KERNEL_UNSOUND);
    put32(other, last, 0);
    asked(other, "eleven places", KERNEL_DONE);
    for (uint32_t at = THREAD_SPARE; at < THREAD_LEN; at++) {
        memcpy(other, block, sizeof block);
        other[thread + at] = 1;
        asked(other, "a spare byte after the list", KERNEL_UNSOUND);
    }
}

/* One tick before its wake tick it waits; at the tick it has timed out. */
static void times_out(void)
{
    group("twelve handles, a wait of a millisecond");
    uint8_t block[KERNEL_BLOCK_LEN], after[KERNEL_BLOCK_LEN];
    for (uint32_t all = 0; all < 2; all++) {
        struct call c = wait_call(LIST, all, MILLISECOND);
        with_events(block);
        memcpy(after, block, sizeof block);
        park(after, all);
        wake_at(after, thread_at(0), WAKE);
        calls(block, &c, "begins", answered(KERNEL_DONE, after, 0, 0));
        memcpy(block, after, sizeof block);
        next_event(block, "waits", 1);
        leave_core(after);
        passes(block, START, "at once", KERNEL_DONE, after, 1);
        passes(block, WAKE - 1, "one tick before", KERNEL_DONE, after, 0);
        with_events(after);
        put_result(after, WAKE, KERNEL_RESULT_TIMED_OUT, 0);
        passes(block, WAKE, "at the tick", KERNEL_DONE, after, 1);
        collects(block, "timed out", KERNEL_RESULT_TIMED_OUT, 0);
    }
}

/* The wait goes on until the last event is signalled; then each is taken as its reset type says. */
static void all_of_twelve(void)
{
    group("twelve handles, a wait for all");
    uint8_t block[KERNEL_BLOCK_LEN], after[KERNEL_BLOCK_LEN];
    struct call c = wait_call(LIST, 1, FOREVER);
    with_events(block);
    memcpy(after, block, sizeof block);
    park(after, 1);
    calls(block, &c, "begins", answered(KERNEL_DONE, after, 0, 0));
    memcpy(block, after, sizeof block);
    leave_core(after);
    passes(block, START, "none signalled", KERNEL_DONE, after, 1);
    for (uint32_t event = 1; event < LIST; event++) {
        signals(block, event);
        memcpy(after, block, sizeof block);
        passes(block, START + event, "not yet all", KERNEL_DONE, after, 0);
    }
    signals(block, LIST);
    with_events(after);
    for (uint32_t event = 1; event < LIST; event++)
        put32(after, slot_at(event) + B, get32(after, slot_at(event) + A) == KERNEL_RESET_STICKY);
    put_result(after, START + LIST, KERNEL_RESULT_SIGNALED, 0);
    passes(block, START + LIST, "all", KERNEL_DONE, after, 1);
    collects(block, "all", KERNEL_RESULT_SIGNALED, 0);

    /* at once, if each but the last is signalled, and if the last is too */
    with_events(block);
    for (uint32_t event = 1; event < LIST; event++)
        put32(block, slot_at(event) + B, 1);
    c = wait_call(LIST, 1, 0);
    calls(block, &c, "all but the last", answered(KERNEL_TIMEOUT, block, R0, 0));
    put32(block, slot_at(LIST) + A, KERNEL_RESET_ONE_SHOT);
    put32(block, slot_at(LIST) + B, 1);
    memcpy(after, block, sizeof block);
    for (uint32_t event = 1; event <= LIST; event++)
        put32(after, slot_at(event) + B, get32(after, slot_at(event) + A) == KERNEL_RESET_STICKY);
    calls(block, &c, "all at once", answered(KERNEL_DONE, after, R0 | R1, 0));
}

/* Only the last is signalled: index 11, at once and by a pass. */
static void last_of_twelve(void)
{
    group("twelve handles, the last of any");
    uint8_t block[KERNEL_BLOCK_LEN], after[KERNEL_BLOCK_LEN];
    struct call c = wait_call(LIST, 0, 0);
    with_events(block);
    put32(block, slot_at(LIST) + A, KERNEL_RESET_ONE_SHOT);
    calls(block, &c, "none", answered(KERNEL_TIMEOUT, block, R0, 0));
    memcpy(after, block, sizeof block);
    put32(block, slot_at(LIST) + B, 1);
    calls(block, &c, "at once", answered(KERNEL_DONE, after, R0 | R1, LIST - 1));

    memcpy(block, after, sizeof block);
    put_result(after, START + 1, KERNEL_RESULT_SIGNALED, LIST - 1);
    park(block, 0);
    leave_core(block);
    signals(block, LIST);
    passes(block, START + 1, "by a pass", KERNEL_DONE, after, 1);
    collects(block, "by a pass", KERNEL_RESULT_SIGNALED, LIST - 1);
}

/* A pulse timer in any place of the list is waited on: the next event is its due tick, and a call that catches up with
   timers keeps its pulse for the wait. One that is on no list is no event, and its pulse is lost. */
static void timer_in_a_place(void)
{
    group("twelve handles, a timer in each place");
    uint8_t block[KERNEL_BLOCK_LEN], after[KERNEL_BLOCK_LEN];
    for (uint32_t place = 1; place <= LIST + 1; place++) {
        uint32_t listed = place <= LIST;
        with_events(block);
        uint32_t timer = slot_at(listed ? place : add_object(block, TIMER));
        if (!listed)
            add_handle(block, place);
        put32(block, timer + KIND, TIMER);
        put32(block, timer + A, KERNEL_RESET_PULSE);
        put32(block, timer + C, 1);
        put64(block, timer + X, WAKE);
        park(block, 0);
        leave_core(block);
        next_event(block, listed ? "listed" : "not listed", listed);

        /* cancelling an unknown handle only catches up */
        struct call c = {.number = KERNEL_CALL_CANCEL_TIMER, .reads = R0, .regs = {0}, .tick = WAKE};
        memcpy(after, block, sizeof block);
        put32(after, timer + B, listed);
        put32(after, timer + PULSED, listed);
        put32(after, timer + C, 0);
        put64(after, timer + X, 0);
        calls(block, &c, listed ? "listed" : "not listed", answered(KERNEL_DONE, after, R0, 0));
        c.tick = WAKE - 1;
        calls(block, &c, "not due yet", answered(KERNEL_DONE, block, R0, 0));
    }
}

/* One mutex in every place is taken twelve times: up to the last lock count, and not beyond. */
static void one_mutex(void)
{
    group("twelve handles, all of one mutex");
    const uint32_t most = UINT32_MAX - LIST;
    uint8_t block[KERNEL_BLOCK_LEN], after[KERNEL_BLOCK_LEN];
    struct call c = wait_call(LIST, 1, 0);
    for (uint32_t i = 0; i < LIST; i++)
        c.words[i] = FIRST;
    running_block(block);
    uint32_t mutex = slot_at(add_mutex(block, 0, most));
    memcpy(after, block, sizeof block);
    put32(after, mutex + C, UINT32_MAX);
    calls(block, &c, "up to 2^32 - 1", answered(KERNEL_DONE, after, R0 | R1, 0));
    put32(block, mutex + C, most + 1);
    calls(block, &c, "one too many", refused(KERNEL_OVERFLOW));
    put32(block, mutex + A, 0);
    put32(block, mutex + C, 0);
    put32(after, mutex + C, LIST);
    calls(block, &c, "free before", answered(KERNEL_DONE, after, R0 | R1, 0));

    /* the same by a pass, for thread 1, which has the mutex and waits for it */
    for (uint32_t more = 0; more < 2; more++) {
        running_block(block);
        uint32_t object = add_mutex(block, 1, most + more);
        memcpy(after, block, sizeof block);
        put32(block, thread_at(1) + STATUS, WAIT_SYNC);
        put32(block, thread_at(1) + WAIT_ALL, 1);
        for (uint32_t i = 0; i < LIST; i++)
            wait_on(block, thread_at(1), object);
        put32(after, slot_at(object) + C, UINT32_MAX);
        put32(after, thread_at(1) + WAIT_RESULT, KERNEL_RESULT_SIGNALED);
        if (more)
            memcpy(after, block, sizeof block);
        passes(block, START, "in a pass", more ? KERNEL_OVERFLOW : KERNEL_DONE, after, 0);
    }
}

/* Refused, though each handle is signalled and twelve of them are accepted. */
static void thirteen(void)
{
    group("thirteen handles");
    uint8_t block[KERNEL_BLOCK_LEN], after[KERNEL_BLOCK_LEN];
    with_events(block);
    for (uint32_t event = 1; event <= LIST; event++)
        put32(block, slot_at(event) + B, 1);
    add_handle(block, 1);
    memcpy(after, block, sizeof block);
    put32(after, slot_at(1) + B, 0);
    for (uint32_t n = 1; n <= LIST + 1; n++)
        for (uint64_t nanoseconds = 0; nanoseconds <= MILLISECOND; nanoseconds += MILLISECOND) {
            struct call c = wait_call(n, 0, nanoseconds);
            calls(block, &c, "any", n > LIST ? refused(KERNEL_LIST) : answered(KERNEL_DONE, after, R0 | R1, 0));
        }
    struct call c = wait_call(LIST + 1, 1, 0);
    calls(block, &c, "all of thirteen", refused(KERNEL_LIST));
}

/* Every handle is signalled: up to eight are found, and for more, which a wait may have, nothing is. */
static void satisfied(void)
{
    group("kernel_satisfied_now, lists of one to thirteen");
    uint8_t block[KERNEL_BLOCK_LEN];
    with_events(block);
    for (uint32_t event = 1; event <= LIST; event++)
        put32(block, slot_at(event) + B, 1);
    add_handle(block, 1);
    for (uint32_t n = 1; n <= LIST + 1; n++)
        for (uint32_t all = 0; all < 2; all++) {
            struct lent handles = lend(4 * n, BEFORE_UNMAPPED);
            struct lent answer = lend(KERNEL_SATISFIED_NOW_LEN, BEFORE_UNMAPPED);
            uint8_t expected[KERNEL_SATISFIED_NOW_LEN] = {0};
            put32(expected, KERNEL_SATISFIED_NOW_FOUND_AT, n <= KERNEL_SATISFIED_NOW_LIST);
            for (uint32_t i = 0; i < n; i++) {
                put32(handles.at, 4 * i, FIRST + i);
                if (n <= KERNEL_SATISFIED_NOW_LIST)
                    put32(expected, KERNEL_SATISFIED_NOW_OBJECTS_AT + 4 * i, 1 + i);
            }
            uint32_t number = kernel_satisfied_now(block, sizeof block, handles.at, handles.len, answer.at, answer.len,
                                                   all, START);
            check(number == KERNEL_DONE, "%u handles: answer %u", n, number);
            size_t at = first_difference(&answer, expected);
            check(at == answer.len, "%u handles, all %u: byte %zu of the answer differs", n, all, at);
            give_back(&handles);
            give_back(&answer);
        }
}

void test_twelve(void)
{
    places();
    times_out();
    all_of_twelve();
    last_of_twelve();
    timer_in_a_place();
    one_mutex();
    thirteen();
    satisfied();
}
