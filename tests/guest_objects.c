/* kernel_dispatch: the calls on semaphores, events, timers and arbiters 0x15, 0x18 to 0x1D and 0x21, each with its answers and what it writes. */
#include "check.h"
#include "guest_call.h"
#include "host.h"
#include "kernel.h"
#include "layout.h"
#include "made_block.h"

#include <string.h>

enum { NOW = 1000 };

/* A call that makes an object leaves it in the next slot with the next handle, which r1 gets. */
static void makes(uint32_t number, uint32_t reads, uint32_t r1, uint32_t r2, uint32_t kind, uint32_t a, uint32_t b, const char *what)
{
    uint8_t block[KERNEL_BLOCK_LEN], after[KERNEL_BLOCK_LEN];
    struct call c = {number, reads, {0, r1, r2}, {0}, NOW};
    running_block(block);
    for (uint32_t handle = KERNEL_FIRST_HANDLE; handle < KERNEL_FIRST_HANDLE + 3; handle++) {
        memcpy(after, block, sizeof block);
        uint32_t object = add_object(after, kind);
        put32(after, slot_at(object) + A, a);
        put32(after, slot_at(object) + B, b);
        add_handle(after, object);
        calls(block, &c, what, answered(KERNEL_DONE, after, R0 | R1, handle));
        memcpy(block, after, sizeof block);
    }
}

static void made(void)
{
    group("kernel_dispatch, semaphores, timers and arbiters made");
    makes(KERNEL_CALL_CREATE_SEMAPHORE, R1 | R2, 0, 0, SEMAPHORE, 0, 0, "a semaphore of 0");
    makes(KERNEL_CALL_CREATE_SEMAPHORE, R1 | R2, 1, 0x7FFFFFFF, SEMAPHORE, 1, 0x7FFFFFFF, "a semaphore of 1");
    makes(KERNEL_CALL_CREATE_SEMAPHORE, R1 | R2, 5, 3, SEMAPHORE, 5, 3, "a semaphore above its maximum");
    makes(KERNEL_CALL_CREATE_SEMAPHORE, R1 | R2, 0x80000000, 0xFFFFFFFF, SEMAPHORE, 0x80000000, 0xFFFFFFFF, "a semaphore below 0");
    makes(KERNEL_CALL_CREATE_TIMER, R1, KERNEL_RESET_ONE_SHOT, 0, TIMER, 0, 0, "a one-shot timer");
    makes(KERNEL_CALL_CREATE_TIMER, R1, KERNEL_RESET_STICKY, 0, TIMER, 1, 0, "a sticky timer");
    makes(KERNEL_CALL_CREATE_TIMER, R1, KERNEL_RESET_PULSE, 0, TIMER, 2, 0, "a pulse timer");
    makes(KERNEL_CALL_CREATE_TIMER, R1, 3, 0, TIMER, 0, 0, "a timer of reset type 3");
    makes(KERNEL_CALL_CREATE_TIMER, R1, 0xFFFFFFFF, 0, TIMER, 0, 0, "a timer of the greatest reset type");
    makes(KERNEL_CALL_CREATE_ADDRESS_ARBITER, 0, 0, 0, ARBITER, 0, 0, "an arbiter");
}

static struct call one_handle(uint32_t number, uint32_t handle)
{
    struct call c = {number, R0, {handle}, {0}, NOW};
    return c;
}

/* A call on a handle of the mixed block that leaves the block as it was. */
static void leaves(uint32_t number, uint32_t handle, const char *what, uint32_t answer)
{
    uint8_t block[KERNEL_BLOCK_LEN];
    struct call c = one_handle(number, handle);
    mixed_block(block);
    calls(block, &c, what, answered(answer, block, R0, 0));
}

/* A pseudo-handle's object is made by a call that names it. */
static void makes_its_own_object(const struct call *c, const char *what, uint32_t answer)
{
    uint8_t block[KERNEL_BLOCK_LEN], after[KERNEL_BLOCK_LEN];
    mixed_block(block);
    memcpy(after, block, sizeof block);
    uint32_t object = add_object(after, THREAD);
    put32(after, slot_at(object) + REFCOUNT, 1);
    put32(after, kept_at(0), object);
    calls(block, c, what, answered(answer, after, R0, 0));
    calls(after, c, what, answered(answer, after, R0, 0));
}

static void signal_event(void)
{
    uint8_t block[KERNEL_BLOCK_LEN], after[KERNEL_BLOCK_LEN];
    struct call c = one_handle(KERNEL_CALL_SIGNAL_EVENT, EVENT_HANDLE);
    group("kernel_dispatch, SignalEvent");
    for (uint32_t type = KERNEL_RESET_ONE_SHOT; type <= KERNEL_RESET_PULSE; type++) {
        /* thread 3 waits on it; a pulse is marked, to be cleared by the next pass */
        mixed_block(block);
        put32(block, mixed_slot(EVENT_HANDLE) + A, type);
        memcpy(after, block, sizeof block);
        put32(after, mixed_slot(EVENT_HANDLE) + B, 1);
        put32(after, mixed_slot(EVENT_HANDLE) + PULSED, type == KERNEL_RESET_PULSE);
        calls(block, &c, "an event that is waited on", answered(KERNEL_DONE, after, R0, 0));
        calls(after, &c, "an event that is signaled", answered(KERNEL_DONE, after, R0, 0));
        /* a pulse that nobody waits on is lost */
        running_block(block);
        uint32_t event = add_object(block, EVENT);
        put32(block, slot_at(event) + A, type);
        add_handle(block, event);
        memcpy(after, block, sizeof block);
        put32(after, slot_at(event) + B, type != KERNEL_RESET_PULSE);
        struct call alone = one_handle(KERNEL_CALL_SIGNAL_EVENT, KERNEL_FIRST_HANDLE);
        calls(block, &alone, "an event that nobody waits on", answered(KERNEL_DONE, after, R0, 0));
    }
    leaves(KERNEL_CALL_SIGNAL_EVENT, TIMER_HANDLE, "a timer is no event, and done", KERNEL_DONE);
    leaves(KERNEL_CALL_SIGNAL_EVENT, NO_HANDLE, "an unknown handle", KERNEL_INVALID_HANDLE);
    leaves(KERNEL_CALL_SIGNAL_EVENT, 0, "handle 0", KERNEL_INVALID_HANDLE);
    c.regs[0] = KERNEL_CURRENT_THREAD;
    makes_its_own_object(&c, "the thread itself", KERNEL_DONE);
}

static void clear_event(void)
{
    uint8_t block[KERNEL_BLOCK_LEN], after[KERNEL_BLOCK_LEN];
    struct call c = one_handle(KERNEL_CALL_CLEAR_EVENT, SIGNALED_HANDLE);
    group("kernel_dispatch, ClearEvent");
    mixed_block(block);
    memcpy(after, block, sizeof block);
    put32(after, mixed_slot(SIGNALED_HANDLE) + B, 0);
    calls(block, &c, "an event that is signaled", answered(KERNEL_DONE, after, R0, 0));
    calls(after, &c, "an event that is not", answered(KERNEL_DONE, after, R0, 0));
    /* the mark belongs to the slot */
    put32(block, mixed_slot(SIGNALED_HANDLE) + PULSED, 1);
    put32(after, mixed_slot(SIGNALED_HANDLE) + PULSED, 1);
    calls(block, &c, "a mark stays", answered(KERNEL_DONE, after, R0, 0));
    leaves(KERNEL_CALL_CLEAR_EVENT, SEMAPHORE_HANDLE, "a semaphore is no event, and done", KERNEL_DONE);
    leaves(KERNEL_CALL_CLEAR_EVENT, NO_HANDLE, "an unknown handle", KERNEL_INVALID_HANDLE);
    c.regs[0] = KERNEL_CURRENT_THREAD;
    makes_its_own_object(&c, "the thread itself", KERNEL_DONE);
}

/* ---- timers: what came due is fired first */

/* The timer's fields. */
static void timer(uint8_t *block, uint32_t at, uint32_t signaled, uint32_t armed, uint64_t fire_at, uint64_t interval)
{
    put32(block, at + B, signaled);
    put32(block, at + C, armed);
    put64(block, at + X, fire_at);
    put64(block, at + Y, interval);
}

/* When a timer fires, marks on slots that nobody waits on go: the mixed block has one on its last slot, which is dead. */
static void fired(uint8_t *after) { put32(after, slot_at(OBJECTS) + PULSED, 0); }

/* SetTimer: nanoseconds until it fires and of its period, both with a sign, and what they become. */
static void set_to(uint64_t initial, uint64_t period, uint64_t tick, uint64_t fire_at, uint64_t interval, const char *what)
{
    uint8_t block[KERNEL_BLOCK_LEN], after[KERNEL_BLOCK_LEN];
    struct call c = {KERNEL_CALL_SET_TIMER, R0 | R1 | R2 | R3 | R4,
                     {TIMER_HANDLE, (uint32_t)period, (uint32_t)initial, (uint32_t)(initial >> 32), (uint32_t)(period >> 32)}, {0}, tick};
    mixed_block(block);
    timer(block, mixed_slot(TIMER_HANDLE), 1, 0, 0, 77);
    memcpy(after, block, sizeof block);
    timer(after, mixed_slot(TIMER_HANDLE), 0, 1, fire_at, interval);
    calls(block, &c, what, answered(KERNEL_DONE, after, R0, 0));
}

static void set_timer(void)
{
    uint8_t block[KERNEL_BLOCK_LEN], after[KERNEL_BLOCK_LEN];
    group("kernel_dispatch, SetTimer");
    set_to(0, 0, NOW, NOW, 0, "at once");
    set_to(3, 3, NOW, NOW, 0, "3 ns are no tick");
    set_to(4, 4, NOW, NOW + 1, 1, "4 ns are a tick");
    set_to(1000000, 1000000000, NOW, NOW + 268111, 268111856, "a millisecond, then each second");
    set_to(5000000000, 10000000000, NOW, NOW + 5 * 268111856ull, 10 * 268111856ull, "times above 32 bits");
    set_to(UINT64_MAX, UINT64_MAX, NOW, NOW, 0, "-1 ns counts as 0");
    set_to(1ull << 63, 1ull << 63, NOW, NOW, 0, "the least number counts as 0");
    set_to(INT64_MAX, INT64_MAX, NOW, NOW + 2472895395379634344ull, 2472895395379634344ull, "the greatest number");
    set_to(INT64_MAX, 0, UINT64_MAX - 9, UINT64_MAX, 0, "cut at the last tick");

    struct call c = {KERNEL_CALL_SET_TIMER, R0 | R1 | R2 | R3 | R4, {NO_HANDLE, 0, 0, 0, 0}, {0}, NOW};
    mixed_block(block);
    calls(block, &c, "an unknown handle", answered(KERNEL_INVALID_HANDLE, block, R0, 0));
    c.regs[0] = EVENT_HANDLE;
    calls(block, &c, "an event is no timer", answered(KERNEL_INVALID_HANDLE, block, R0, 0));
    c.regs[0] = KERNEL_CURRENT_THREAD;
    makes_its_own_object(&c, "a thread is no timer, but has an object then", KERNEL_INVALID_HANDLE);
    /* a timer that came due fires, whatever the handle */
    c.regs[0] = NO_HANDLE;
    c.tick = 5600;
    memcpy(after, block, sizeof block);
    timer(after, mixed_slot(TIMER_HANDLE), 1, 1, 5900, 300);
    fired(after);
    calls(block, &c, "an unknown handle, and a timer that is due", answered(KERNEL_INVALID_HANDLE, after, R0, 0));
    c.regs[0] = TIMER_HANDLE;
    timer(after, mixed_slot(TIMER_HANDLE), 0, 1, 5600, 0);
    calls(block, &c, "a timer that is due is set anew", answered(KERNEL_DONE, after, R0, 0));
}

/* CancelTimer and ClearTimer on the mixed block's timer, due at 5000 with a period of 300. */
static void stops(uint32_t number, uint32_t handle, uint64_t tick, uint32_t signaled, uint32_t armed, uint64_t fire_at, const char *what)
{
    uint8_t block[KERNEL_BLOCK_LEN], after[KERNEL_BLOCK_LEN];
    struct call c = one_handle(number, handle);
    c.tick = tick;
    mixed_block(block);
    memcpy(after, block, sizeof block);
    timer(after, mixed_slot(TIMER_HANDLE), signaled, armed, fire_at, 300);
    if (tick >= 5000)
        fired(after);
    calls(block, &c, what, answered(KERNEL_DONE, after, R0, 0));
}

static void cancel_and_clear_timer(void)
{
    group("kernel_dispatch, CancelTimer");
    stops(KERNEL_CALL_CANCEL_TIMER, TIMER_HANDLE, 4999, 0, 0, 0, "before it is due");
    stops(KERNEL_CALL_CANCEL_TIMER, TIMER_HANDLE, 5000, 1, 0, 0, "when it is due: it has fired");
    stops(KERNEL_CALL_CANCEL_TIMER, NO_HANDLE, 4999, 0, 1, 5000, "an unknown handle is done");
    stops(KERNEL_CALL_CANCEL_TIMER, NO_HANDLE, 5299, 1, 1, 5300, "an unknown handle, and a timer that is due");
    stops(KERNEL_CALL_CANCEL_TIMER, MUTEX_HANDLE, NOW, 0, 1, 5000, "a mutex is no timer, and done");
    struct call c = one_handle(KERNEL_CALL_CANCEL_TIMER, KERNEL_CURRENT_THREAD);
    makes_its_own_object(&c, "the thread itself", KERNEL_DONE);

    group("kernel_dispatch, ClearTimer");
    stops(KERNEL_CALL_CLEAR_TIMER, TIMER_HANDLE, 4999, 0, 1, 5000, "before it is due");
    stops(KERNEL_CALL_CLEAR_TIMER, TIMER_HANDLE, 5300, 0, 1, 5600, "when it is due: it has fired");
    stops(KERNEL_CALL_CLEAR_TIMER, NO_HANDLE, 5300, 1, 1, 5600, "an unknown handle is done");
    stops(KERNEL_CALL_CLEAR_TIMER, EVENT_HANDLE, NOW, 0, 1, 5000, "an event is no timer, and done");
    c.number = KERNEL_CALL_CLEAR_TIMER;
    makes_its_own_object(&c, "the thread itself", KERNEL_DONE);
}

/* A pulse that comes due is marked if somebody waits on its timer, and lost if nobody does. One that does not repeat is stopped. */
static void pulses(void)
{
    uint8_t block[KERNEL_BLOCK_LEN], after[KERNEL_BLOCK_LEN];
    struct call c = one_handle(KERNEL_CALL_CANCEL_TIMER, NO_HANDLE);
    group("kernel_dispatch, a pulse that comes due");
    mixed_block(block);
    uint32_t waited = mixed_slot(TIMER_HANDLE), alone = slot_at(add_timer(block, 900));
    put32(block, waited + A, KERNEL_RESET_PULSE);
    put32(block, alone + A, KERNEL_RESET_PULSE);
    timer(block, waited, 0, 1, 800, 150);
    memcpy(after, block, sizeof block);
    timer(after, waited, 1, 1, 1100, 150);
    timer(after, alone, 0, 0, 0, 0);
    put32(after, waited + PULSED, 1);
    fired(after);
    calls(block, &c, "one that is waited on and one that is not", answered(KERNEL_DONE, after, R0, 0));
}

void test_guest_objects(void)
{
    made();
    signal_event();
    clear_event();
    set_timer();
    cancel_and_clear_timer();
    pulses();
}
