/*
 * Every refusal that each export can give, by each way that leads to it. All that is lent is compared before and after. Which export
 * can give which follows from document 01's questions:
 *
 * 1     every export.
 * 2     all but kernel_fresh_start, which needs only question 1.
 * 3     kernel_dispatch: every other export is one known operation.
 * 4     kernel_dispatch and kernel_collect, which need a thread that runs, and kernel_end_thread, which is given one. A pass,
 *       kernel_satisfied_now and kernel_quiet_release do without a current thread.
 * 5, 6  kernel_dispatch, for calls 0x25 and 0x22. For a lent list that is too long kernel_satisfied_now finds nothing.
 * 7     kernel_dispatch and kernel_create_thread: no other export adds a thread, an object, a handle or a record.
 * 8     all but kernel_fresh_start: a next handle above 0xFFFF8000 is enough.
 */
#include "check.h"
#include "exports.h"
#include "fresh_block.h"
#include "host.h"
#include "kernel.h"
#include "layout.h"
#include "lent.h"
#include "made_block.h"

#include <stdio.h>
#include <string.h>

enum { BASE = 0x100000, REFUSALS = 9 };

static const char *const can_give[EXPORTS] = {
    [FRESH_START] = "1", [CREATE_THREAD] = "1278", [SCHEDULE] = "128", [NEXT_EVENT] = "128", [SATISFIED_NOW] = "128",
    [QUIET_RELEASE] = "128", [END_THREAD] = "1248", [DISPATCH] = "12345678", [COLLECT] = "1248",
};
static unsigned long reached[EXPORTS][REFUSALS];

/* ---- a call that is accepted */

struct setup {
    uint8_t block[KERNEL_BLOCK_LEN];
    size_t lens[MOST_SLICES];
    uint32_t regs[6], word; /* the processor's first registers; every word of the window and of the handle list */
    struct numbers numbers;
};

/* The guest call is a wait of 0 on two handles. */
static struct setup accepted(uint32_t export)
{
    struct setup s = {
        .regs = {0, BASE, 2, 0, 0, 0}, .word = SIGNALED_HANDLE,
        .numbers = {.handle = MUTEX_HANDLE, .thread = 1, .window_base = BASE, .call = KERNEL_CALL_WAIT_SYNCHRONIZATION_N, .tick = 1000},
    };
    mixed_block(s.block);
    for (uint32_t i = 0; i < exports[export].slices; i++)
        s.lens[i] = usual_length(&exports[export], i);
    return s;
}

/* Lends it all and makes the call: this number, and nothing changed if it is a refusal. */
static void gives(uint32_t export, const struct setup *s, uint32_t expected, const char *why)
{
    const struct export *e = &exports[export];
    struct lent l[MOST_SLICES];
    uint32_t number;
    for (uint32_t i = 0; i < e->slices; i++) {
        l[i] = lend(s->lens[i], BEFORE_UNMAPPED);
        if (e->lent[i].kind == BLOCK)
            memcpy(l[i].at, s->block, l[i].len < sizeof s->block ? l[i].len : sizeof s->block);
        if (e->lent[i].kind == PROCESSOR)
            for (uint32_t r = 0; r < 6; r++)
                put32(l[i].at, 4 * r, s->regs[r]);
        if (e->lent[i].kind == WINDOW || e->lent[i].kind == HANDLE_LIST)
            for (uint32_t at = 0; at + 4 <= l[i].len; at += 4)
                put32(l[i].at, at, s->word);
    }
    if (call_lent(e, l, &s->numbers, &number, why)) {
        check(number == expected, "%s, call %x, %s: answer %u, not %u", e->name, s->numbers.call, why, number, expected);
        int unchanged = 1;
        for (uint32_t i = 0; i < e->slices; i++)
            unchanged &= same(&l[i]);
        if (!KERNEL_ACCEPTED(expected)) {
            check(unchanged, "%s, call %x, %s: refused, and a byte changed", e->name, s->numbers.call, why);
            reached[export][expected] += number == expected && unchanged;
        }
    }
    for (uint32_t i = 0; i < e->slices; i++)
        give_back(&l[i]);
}

/* ---- what is spoilt, in blocks */

static void unsound(uint8_t *block) { block[SPARE_AT] = 1; }
static void handles_used_up(uint8_t *block) { put32(block, NEXT_HANDLE, KERNEL_LAST_HANDLE + 2); }
static void last_handle_given(uint8_t *block) { put32(block, NEXT_HANDLE, KERNEL_LAST_HANDLE + 1); }
static void guest_ids_used_up(uint8_t *block) { put32(block, NEXT_GUEST_ID, 0xFFFFFFFF); }
static void current_is_ready(uint8_t *block) { put32(block, thread_at(0) + STATUS, READY); }

static void no_current(uint8_t *block)
{
    current_is_ready(block);
    make_none_current(block);
}

/* No thread's place is left, that of the Dead one neither: a handle names it. */
static void no_threads(uint8_t *block)
{
    uint32_t dead = get32(block, THREAD_COUNT) - 1, object = add_object(block, THREAD);
    put32(block, slot_at(object) + A, dead);
    add_handle(block, object);
    put32(block, slot_at(object) + REFCOUNT, 2);
    put32(block, kept_at(dead), object);
    while (get32(block, THREAD_COUNT) < THREADS)
        add_thread(block, READY);
}

static void no_objects(uint8_t *block)
{
    while (get32(block, FIRST_FREE_OBJECT) != 0)
        add_handle(block, add_object(block, EVENT));
}

static void no_handles(uint8_t *block)
{
    while (get32(block, HANDLE_COUNT) < HANDLES)
        add_handle(block, mixed_object(EVENT_HANDLE));
}

static void no_records(uint8_t *block)
{
    for (uint32_t address = 16; get32(block, FIRST_FREE_RECORD) != 0; address += 4)
        add_record(block, mixed_object(ARBITER_HANDLE), 5, address);
}

static void locked_most(uint8_t *block) { put32(block, mixed_slot(MUTEX_HANDLE) + C, 0xFFFFFFFF); }
static void locked_often(uint8_t *block) { put32(block, mixed_slot(MUTEX_HANDLE) + C, 0u - KERNEL_WAIT_LIST); }
static void least_count(uint8_t *block) { put32(block, mixed_slot(SEMAPHORE_HANDLE) + A, 0x80000000); }

/* At the last tick a timer that was due at 0 has had 2^64 periods. */
static void most_periods(uint8_t *block)
{
    put64(block, mixed_slot(TIMER_HANDLE) + X, 0);
    put64(block, mixed_slot(TIMER_HANDLE) + Y, 1);
}

/* A thread waits for a mutex that it has locked as often as can be counted. */
static void waits_for_its_own(uint8_t *block)
{
    uint32_t thread = add_thread(block, WAIT_SYNC), owner = get32(block, THREAD_COUNT) - 1;
    wait_on(block, thread, add_mutex(block, owner, 0xFFFFFFFF));
}

/* ---- an export with its block spoilt */

static const struct spoilt {
    uint32_t export, refusal;
    const char *why;
    void (*block)(uint8_t *block);
    uint64_t tick; /* 0: the usual one */
} spoilt[] = {
    {CREATE_THREAD, KERNEL_UNSOUND, "a spare byte", unsound, 0},
    {SCHEDULE, KERNEL_UNSOUND, "a spare byte", unsound, 0},
    {NEXT_EVENT, KERNEL_UNSOUND, "a spare byte", unsound, 0},
    {SATISFIED_NOW, KERNEL_UNSOUND, "a spare byte", unsound, 0},
    {QUIET_RELEASE, KERNEL_UNSOUND, "a spare byte", unsound, 0},
    {END_THREAD, KERNEL_UNSOUND, "a spare byte", unsound, 0},
    {COLLECT, KERNEL_UNSOUND, "a spare byte", unsound, 0},
    {COLLECT, KERNEL_NO_THREAD, "the current thread is Ready", current_is_ready, 0},
    {COLLECT, KERNEL_NO_THREAD, "no current thread", no_current, 0},
    {CREATE_THREAD, KERNEL_FULL, "32 threads that live or are named", no_threads, 0},
    {CREATE_THREAD, KERNEL_OVERFLOW, "no handle is left", handles_used_up, 0},
    {CREATE_THREAD, KERNEL_OVERFLOW, "no guest id is left", guest_ids_used_up, 0},
    {SCHEDULE, KERNEL_OVERFLOW, "no handle is left", handles_used_up, 0},
    {SCHEDULE, KERNEL_OVERFLOW, "periods that do not fit", most_periods, UINT64_MAX},
    {SCHEDULE, KERNEL_OVERFLOW, "a lock count that does not fit", waits_for_its_own, 0},
    {NEXT_EVENT, KERNEL_OVERFLOW, "no handle is left", handles_used_up, 0},
    {SATISFIED_NOW, KERNEL_OVERFLOW, "no handle is left", handles_used_up, 0},
    {QUIET_RELEASE, KERNEL_OVERFLOW, "no handle is left", handles_used_up, 0},
    {END_THREAD, KERNEL_OVERFLOW, "no handle is left", handles_used_up, 0},
    {COLLECT, KERNEL_OVERFLOW, "no handle is left", handles_used_up, 0},
};

static void spoilt_blocks(void)
{
    group("refusals, a block that is spoilt");
    for (uint32_t e = 0; e < EXPORTS; e++) {
        struct setup s = accepted(e);
        gives(e, &s, KERNEL_DONE, "nothing spoilt");
    }
    for (size_t i = 0; i < sizeof spoilt / sizeof *spoilt; i++) {
        struct setup s = accepted(spoilt[i].export);
        spoilt[i].block(s.block);
        if (spoilt[i].tick)
            s.numbers.tick = spoilt[i].tick;
        gives(spoilt[i].export, &s, spoilt[i].refusal, spoilt[i].why);
    }
    /* of a current thread that does not run */
    for (uint32_t status = READY; status <= DORMANT; status++) {
        struct setup s = accepted(COLLECT);
        put32(s.block, thread_at(0) + STATUS, status);
        gives(COLLECT, &s, KERNEL_NO_THREAD, "the current thread does not run");
    }
    /* threads to end that are Dead or do not exist */
    static const uint32_t none[] = {6, 7, 8, 31, 32, 33, 64, 0x7FFFFFFF, 0x80000000, 0xFFFFFFFF};
    for (size_t i = 0; i < sizeof none / sizeof *none; i++) {
        struct setup s = accepted(END_THREAD);
        s.numbers.thread = none[i];
        gives(END_THREAD, &s, KERNEL_NO_THREAD, "no such thread");
    }
}

/* Every slice is a byte too short, and the window ends a byte too late. All other lengths are in tests/guard.c. */
static void short_slices(void)
{
    group("refusals, a slice that is too short");
    for (uint32_t e = 0; e < EXPORTS; e++)
        for (uint32_t i = 0; i < exports[e].slices; i++) {
            struct setup s = accepted(e);
            s.lens[i]--;
            gives(e, &s, KERNEL_LENGTH, "a slice too short");
        }
    struct setup s = accepted(DISPATCH);
    s.numbers.window_base = 0u - USUAL_WINDOW + 1;
    gives(DISPATCH, &s, KERNEL_LENGTH, "a window that ends late");
}

/* ---- guest calls */

/* Each of the 21, with registers that it is accepted with on the mixed block, and where it has a handle. */
enum { NO_REGISTER = 9, IN_WINDOW = 8 };

static const struct guest_call {
    uint32_t number, regs[6], handle_in;
    int makes; /* an object and a handle */
} guest_calls[] = {
    {KERNEL_CALL_CREATE_THREAD, {40, 0x1000, 0, 0x2000, 0}, NO_REGISTER, 1},
    {KERNEL_CALL_EXIT_THREAD, {0}, NO_REGISTER, 0},
    {KERNEL_CALL_SLEEP_THREAD, {1000000}, NO_REGISTER, 0},
    /* it looks a pseudo-handle up without making its object */
    {KERNEL_CALL_SET_THREAD_PRIORITY, {THREAD_HANDLE, 5}, NO_REGISTER, 0},
    {KERNEL_CALL_CREATE_MUTEX, {0, 1}, NO_REGISTER, 1},
    {KERNEL_CALL_RELEASE_MUTEX, {MUTEX_HANDLE}, 0, 0},
    {KERNEL_CALL_CREATE_SEMAPHORE, {0, 1, 2}, NO_REGISTER, 1},
    {KERNEL_CALL_RELEASE_SEMAPHORE, {0, SEMAPHORE_HANDLE, 1}, 1, 0},
    {KERNEL_CALL_CREATE_EVENT, {0}, NO_REGISTER, 1},
    {KERNEL_CALL_SIGNAL_EVENT, {EVENT_HANDLE}, 0, 0},
    {KERNEL_CALL_CLEAR_EVENT, {EVENT_HANDLE}, 0, 0},
    {KERNEL_CALL_CREATE_TIMER, {0}, NO_REGISTER, 1},
    {KERNEL_CALL_SET_TIMER, {TIMER_HANDLE, 1000000, 1000000}, 0, 0},
    {KERNEL_CALL_CANCEL_TIMER, {TIMER_HANDLE}, 0, 0},
    {KERNEL_CALL_CLEAR_TIMER, {TIMER_HANDLE}, 0, 0},
    {KERNEL_CALL_CREATE_ADDRESS_ARBITER, {0}, NO_REGISTER, 1},
    {KERNEL_CALL_ARBITRATE_ADDRESS, {ARBITER_HANDLE, BASE, KERNEL_ARBITRATION_WAIT_IF_LESS_THAN, 0x7FFFFFFF}, 0, 0},
    /* it closes no pseudo-handle, and makes no object for one */
    {KERNEL_CALL_CLOSE_HANDLE, {EVENT_HANDLE}, NO_REGISTER, 0},
    {KERNEL_CALL_WAIT_SYNCHRONIZATION1, {SIGNALED_HANDLE}, 0, 0},
    {KERNEL_CALL_WAIT_SYNCHRONIZATION_N, {0, BASE, 2}, IN_WINDOW, 0},
    {KERNEL_CALL_DUPLICATE_HANDLE, {0, EVENT_HANDLE}, 1, 0},
};
enum { GUEST_CALLS = sizeof guest_calls / sizeof *guest_calls };

static struct setup guest_call(uint32_t i)
{
    struct setup s = accepted(DISPATCH);
    s.numbers.call = guest_calls[i].number;
    memcpy(s.regs, guest_calls[i].regs, sizeof s.regs);
    return s;
}

static int is_guest_call(uint32_t number)
{
    for (uint32_t i = 0; i < GUEST_CALLS; i++)
        if (guest_calls[i].number == number)
            return 1;
    return 0;
}

static void spoilt_call(uint32_t i, void (*block)(uint8_t *), uint32_t refusal, const char *why)
{
    struct setup s = guest_call(i);
    block(s.block);
    gives(DISPATCH, &s, refusal, why);
}

/* What is the same for all 21, and for all that make or name an object. */
static void every_guest_call(void)
{
    group("refusals, each guest call");
    for (uint32_t i = 0; i < GUEST_CALLS; i++) {
        struct setup s = guest_call(i);
        gives(DISPATCH, &s, KERNEL_DONE, "nothing spoilt");
        spoilt_call(i, unsound, KERNEL_UNSOUND, "a spare byte");
        spoilt_call(i, no_current, KERNEL_NO_THREAD, "no current thread");
        for (uint32_t status = READY; status <= DORMANT; status++) {
            s = guest_call(i);
            put32(s.block, thread_at(0) + STATUS, status);
            gives(DISPATCH, &s, KERNEL_NO_THREAD, "the current thread does not run");
        }
        spoilt_call(i, handles_used_up, KERNEL_OVERFLOW, "no handle is left");
        if (guest_calls[i].makes) {
            spoilt_call(i, no_objects, KERNEL_FULL, "128 objects");
            spoilt_call(i, no_handles, KERNEL_FULL, "256 handles");
            spoilt_call(i, last_handle_given, KERNEL_OVERFLOW, "the last handle is given");
        }
        /* a pseudo-handle's object is made when it is named; there is no room for it */
        for (uint32_t pseudo = KERNEL_CURRENT_THREAD; pseudo <= KERNEL_CURRENT_PROCESS && guest_calls[i].handle_in != NO_REGISTER; pseudo++) {
            s = guest_call(i);
            full_block(s.block);
            if (guest_calls[i].handle_in == IN_WINDOW)
                s.word = pseudo;
            else
                s.regs[guest_calls[i].handle_in] = pseudo;
            gives(DISPATCH, &s, KERNEL_FULL, "a pseudo-handle and 128 objects");
        }
    }
    /* numbers that are no call, those too that are one with a bit more */
    for (uint32_t number = 0; number < 0x200; number++)
        for (uint32_t high = 0; high < 2; high++) {
            struct setup s = accepted(DISPATCH);
            s.numbers.call = high ? ~number : number;
            if (!is_guest_call(s.numbers.call))
                gives(DISPATCH, &s, KERNEL_UNKNOWN, "no such call");
        }
}

/* The ways of one call alone: its number, registers and words on the mixed block, spoilt. */
static const struct way {
    uint32_t refusal;
    const char *why;
    uint32_t number, regs[6], word;
    void (*block)(uint8_t *block);
    uint64_t tick; /* 0: the usual one */
} ways[] = {
#define LIST(n) KERNEL_CALL_WAIT_SYNCHRONIZATION_N, {0, BASE, n}, SIGNALED_HANDLE, NULL, 0
    {KERNEL_LIST, "one handle too many", LIST(KERNEL_WAIT_LIST + 1)},
    {KERNEL_LIST, "two handles too many", LIST(KERNEL_WAIT_LIST + 2)},
    {KERNEL_LIST, "2^30 handles, whose bytes are 0 in 32 bits", LIST(0x40000000)},
    {KERNEL_LIST, "2^31 handles", LIST(0x80000000)},
    {KERNEL_LIST, "2^32 - 1 handles", LIST(0xFFFFFFFF)},
#define LIST_AT(address) KERNEL_CALL_WAIT_SYNCHRONIZATION_N, {0, address, KERNEL_WAIT_LIST}, SIGNALED_HANDLE, NULL, 0
    {KERNEL_ADDRESS, "a list before the window", LIST_AT(BASE - 4)},
    {KERNEL_ADDRESS, "a list past the window's end", LIST_AT(BASE + USUAL_WINDOW - 4 * KERNEL_WAIT_LIST + 4)},
    {KERNEL_ADDRESS, "a list after the window", LIST_AT(BASE + USUAL_WINDOW)},
    {KERNEL_ADDRESS, "a list that is not aligned", LIST_AT(BASE + 2)},
    {KERNEL_ADDRESS, "a list past 2^32", LIST_AT(0xFFFFFFFC)},
#define WORD_AT(address, kind) KERNEL_CALL_ARBITRATE_ADDRESS, {NO_HANDLE, address, kind}, 0, NULL, 0
    /* asked whatever the handle */
    {KERNEL_ADDRESS, "a word before the window", WORD_AT(BASE - 4, 1)},
    {KERNEL_ADDRESS, "a word after the window", WORD_AT(BASE + USUAL_WINDOW, 2)},
    {KERNEL_ADDRESS, "a word that is not aligned", WORD_AT(BASE + 1, 3)},
    {KERNEL_ADDRESS, "a word far away", WORD_AT(0xFFFFFFFC, 4)},
    {KERNEL_FULL, "the 33rd thread", KERNEL_CALL_CREATE_THREAD, {40, 0x1000, 0, 0x2000}, 0, no_threads, 0},
    {KERNEL_FULL, "the 257th handle", KERNEL_CALL_DUPLICATE_HANDLE, {0, EVENT_HANDLE}, 0, no_handles, 0},
#define PARK(kind, block) KERNEL_CALL_ARBITRATE_ADDRESS, {ARBITER_HANDLE, BASE, kind, 1}, 0, block, 0
    {KERNEL_FULL, "the 65th record", PARK(1, no_records)},
    {KERNEL_FULL, "the 65th record, counted down", PARK(2, no_records)},
    {KERNEL_FULL, "the 65th record, for a time", PARK(3, no_records)},
    {KERNEL_FULL, "the 65th record, counted down, for a time", PARK(4, no_records)},
    {KERNEL_OVERFLOW, "the last handle is given", KERNEL_CALL_DUPLICATE_HANDLE, {0, EVENT_HANDLE}, 0, last_handle_given, 0},
    {KERNEL_OVERFLOW, "no guest id is left", KERNEL_CALL_CREATE_THREAD, {40, 0x1000, 0, 0x2000}, 0, guest_ids_used_up, 0},
    {KERNEL_OVERFLOW, "a count above 2^31 - 1", KERNEL_CALL_RELEASE_SEMAPHORE, {0, SEMAPHORE_HANDLE, 0x7FFFFFFF}, 0, NULL, 0},
    {KERNEL_OVERFLOW, "a count below -2^31", KERNEL_CALL_RELEASE_SEMAPHORE, {0, SEMAPHORE_HANDLE, 0xFFFFFFFF}, 0, least_count, 0},
#define LEAST_WORD(kind) KERNEL_CALL_ARBITRATE_ADDRESS, {ARBITER_HANDLE, BASE, kind, 0}, 0x80000000, NULL, 0
    {KERNEL_OVERFLOW, "one less than -2^31", LEAST_WORD(2)},
    {KERNEL_OVERFLOW, "one less than -2^31, for a time", LEAST_WORD(4)},
    {KERNEL_OVERFLOW, "one lock too many", KERNEL_CALL_WAIT_SYNCHRONIZATION1, {MUTEX_HANDLE}, 0, locked_most, 0},
    {KERNEL_OVERFLOW, "one lock too many, of any", KERNEL_CALL_WAIT_SYNCHRONIZATION_N, {0, BASE, 1, 0}, MUTEX_HANDLE, locked_most, 0},
    {KERNEL_OVERFLOW, "a whole list of locks, one too many", KERNEL_CALL_WAIT_SYNCHRONIZATION_N,
     {0, BASE, KERNEL_WAIT_LIST, 1}, MUTEX_HANDLE, locked_often, 0},
#define LATE(number, ...) number, {__VA_ARGS__}, SIGNALED_HANDLE, most_periods, UINT64_MAX
    {KERNEL_OVERFLOW, "periods that do not fit", LATE(KERNEL_CALL_SET_TIMER, TIMER_HANDLE)},
    {KERNEL_OVERFLOW, "periods that do not fit", LATE(KERNEL_CALL_CANCEL_TIMER, TIMER_HANDLE)},
    {KERNEL_OVERFLOW, "periods that do not fit", LATE(KERNEL_CALL_CLEAR_TIMER, TIMER_HANDLE)},
    {KERNEL_OVERFLOW, "periods that do not fit", LATE(KERNEL_CALL_WAIT_SYNCHRONIZATION1, SIGNALED_HANDLE)},
    {KERNEL_OVERFLOW, "periods that do not fit", LATE(KERNEL_CALL_WAIT_SYNCHRONIZATION_N, 0, BASE, 2)},
};

static void ways_of_one(void)
{
    group("refusals, of one guest call");
    for (size_t i = 0; i < sizeof ways / sizeof *ways; i++) {
        struct setup s = accepted(DISPATCH);
        s.numbers.call = ways[i].number;
        memcpy(s.regs, ways[i].regs, sizeof s.regs);
        s.word = ways[i].word;
        if (ways[i].block)
            ways[i].block(s.block);
        if (ways[i].tick)
            s.numbers.tick = ways[i].tick;
        gives(DISPATCH, &s, ways[i].refusal, ways[i].why);
    }
    /* one step before each limit of a number it is accepted */
    struct setup s = accepted(DISPATCH);
    s.numbers.call = KERNEL_CALL_RELEASE_SEMAPHORE;
    memcpy(s.regs, (const uint32_t[6]){0, SEMAPHORE_HANDLE, 0x7FFFFFFE}, sizeof s.regs);
    gives(DISPATCH, &s, KERNEL_DONE, "a count of 2^31 - 1");
    least_count(s.block);
    s.regs[2] = 0;
    gives(DISPATCH, &s, KERNEL_DONE, "a count of -2^31");
    s = accepted(DISPATCH);
    s.numbers.call = KERNEL_CALL_ARBITRATE_ADDRESS;
    memcpy(s.regs, (const uint32_t[6]){ARBITER_HANDLE, BASE, 2, 0}, sizeof s.regs);
    s.word = 0x80000001;
    gives(DISPATCH, &s, KERNEL_DONE, "one less than -2^31 + 1");
    s = accepted(DISPATCH);
    s.regs[2] = KERNEL_WAIT_LIST;
    s.regs[3] = 1;
    s.word = MUTEX_HANDLE;
    put32(s.block, mixed_slot(MUTEX_HANDLE) + C, 0xFFFFFFFF - KERNEL_WAIT_LIST);
    gives(DISPATCH, &s, KERNEL_DONE, "a whole list of locks, up to 2^32 - 1");
    s = accepted(SCHEDULE);
    most_periods(s.block);
    s.numbers.tick = UINT64_MAX - 1;
    gives(SCHEDULE, &s, KERNEL_DONE, "2^64 - 1 periods");
}

/* ---- the order: all that can be spoilt is, and the least refusal comes back */

static void too_short(struct setup *s) { s->lens[0]--; }
static void not_sound(struct setup *s) { unsound(s->block); }
static void unknown_number(struct setup *s) { s->numbers.call = 0x26; }
static void nobody_runs(struct setup *s) { current_is_ready(s->block); }
static void nobody_to_end(struct setup *s) { s->numbers.thread = THREADS; }
static void too_many_handles(struct setup *s) { s->regs[2] = KERNEL_WAIT_LIST + 1; }
static void list_outside(struct setup *s) { s->regs[1] = BASE + USUAL_WINDOW; }
static void no_place(struct setup *s) { no_threads(s->block); }
static void out_of_handles(struct setup *s) { handles_used_up(s->block); }
static void no_object_for_itself(struct setup *s)
{
    no_objects(s->block);
    s->word = KERNEL_CURRENT_THREAD;
}

static void order(void)
{
    group("refusals, in their order");
    for (uint32_t e = 0; e < EXPORTS; e++) {
        void (*const spoil[REFUSALS])(struct setup *) = {
            NULL, too_short, not_sound, unknown_number, e == END_THREAD ? nobody_to_end : nobody_runs, too_many_handles,
            list_outside, e == CREATE_THREAD ? no_place : no_object_for_itself, out_of_handles,
        };
        for (const char *first = can_give[e]; *first; first++) {
            struct setup s = accepted(e);
            for (const char *r = first; *r; r++)
                spoil[*r - '0'](&s);
            gives(e, &s, (uint32_t)(*first - '0'), "and all that come after it");
        }
    }
}

static void table(void)
{
    printf("%-22s", "refusals reached");
    for (int r = 1; r < REFUSALS; r++)
        printf("%6d", r);
    for (uint32_t e = 0; e < EXPORTS; e++) {
        printf("\n%-22s", exports[e].name);
        for (int r = 1; r < REFUSALS; r++)
            printf("%6lu", reached[e][r]);
    }
    printf("\n");
    group("refusals, each that can be given was");
    for (uint32_t e = 0; e < EXPORTS; e++)
        for (int r = 1; r < REFUSALS; r++)
            check((reached[e][r] != 0) == (strchr(can_give[e], '0' + r) != NULL), "%s: refusal %d reached %lu times", exports[e].name, r,
                  reached[e][r]);
}

void test_refusals(void)
{
    short_slices();
    spoilt_blocks();
    every_guest_call();
    ways_of_one();
    order();
    table();
}
