/* Document 01's worked cases that are run, played from a fresh start through the exports alone, as a host plays them. */
#include "check.h"
#include "host.h"
#include "kernel.h"
#include "layout.h"

#include <string.h>

enum { BASE = 0x100000, WINDOW = 64 };

/* Everything that is lent. */
static uint8_t block[KERNEL_BLOCK_LEN], bank[KERNEL_BANK_LEN], processor[KERNEL_PROCESSOR_LEN], window[WINDOW];

static uint32_t reg(uint32_t i)
{
    return get32(processor, 4 * i);
}

static uint32_t create(uint32_t priority)
{
    uint8_t answer[KERNEL_CREATE_THREAD_LEN];
    return kernel_create_thread(block, sizeof block, bank, sizeof bank, answer, sizeof answer, 0x1000, 0x2000, 0, priority, 0);
}

static uint32_t pass(uint64_t tick)
{
    uint8_t answer[KERNEL_SCHEDULE_LEN];
    return kernel_schedule(block, sizeof block, bank, sizeof bank, processor, sizeof processor, answer, sizeof answer, tick);
}

static uint32_t call(uint32_t number, uint64_t tick, uint32_t r0, uint32_t r1, uint32_t r2, uint32_t r3, uint32_t r4, uint32_t r5)
{
    uint32_t r[6] = {r0, r1, r2, r3, r4, r5};
    for (uint32_t i = 0; i < 6; i++)
        put32(processor, 4 * i, r[i]);
    return kernel_dispatch(block, sizeof block, bank, sizeof bank, processor, sizeof processor, window, sizeof window, BASE, number, tick);
}

/* A fresh start with one thread, which runs. */
static void start(void)
{
    memset(window, 0, sizeof window);
    memset(processor, 0, sizeof processor);
    check(kernel_fresh_start(block, sizeof block, bank, sizeof bank, 0x10) == KERNEL_DONE, "a fresh start");
    check(create(30) == KERNEL_DONE, "a thread");
    check(pass(0) == KERNEL_DONE, "a pass");
}

static void made(uint32_t number, uint32_t expected)
{
    check(number == KERNEL_DONE && reg(1) == expected, "made: answer %u, handle %X", number, reg(1));
}

static void semaphores(void)
{
    group("cases, a semaphore of 5 with maximum 3");
    start();
    made(call(KERNEL_CALL_CREATE_SEMAPHORE, 1, 0, 5, 3, 0, 0, 0), 0x10000);
    check(call(KERNEL_CALL_RELEASE_SEMAPHORE, 1, 0, 0x10000, 1, 0, 0, 0) == KERNEL_DONE && reg(1) == 5, "previous %u", reg(1));
    check(call(KERNEL_CALL_RELEASE_SEMAPHORE, 1, 0, 0x10000, 0, 0, 0, 0) == KERNEL_DONE && reg(1) == 3, "count %u", reg(1));
}

static void handles(void)
{
    group("cases, handles are never given again");
    start();
    made(call(KERNEL_CALL_CREATE_EVENT, 1, 0, 0, 0, 0, 0, 0), 0x10000);
    made(call(KERNEL_CALL_CREATE_ADDRESS_ARBITER, 1, 0, 0, 0, 0, 0, 0), 0x10001);
    check(call(KERNEL_CALL_CLOSE_HANDLE, 1, 0x10000, 0, 0, 0, 0, 0) == KERNEL_DONE, "closed");
    made(call(KERNEL_CALL_CREATE_EVENT, 1, 0, 0, 0, 0, 0, 0), 0x10002);
}

static void limits(void)
{
    group("cases, thirteen handles, the 33rd thread, the least word");
    start();
    check(call(KERNEL_CALL_WAIT_SYNCHRONIZATION_N, 1, 0, BASE, 13, 0, 0, 0) == KERNEL_LIST, "thirteen handles");
    put32(window, 8, 0x80000000);
    made(call(KERNEL_CALL_CREATE_ADDRESS_ARBITER, 1, 0, 0, 0, 0, 0, 0), 0x10000);
    check(call(KERNEL_CALL_ARBITRATE_ADDRESS, 1, 0x10000, BASE + 8, 2, 0, 0, 0) == KERNEL_OVERFLOW, "counted down from the least word");
    for (uint32_t i = 1; i < 32; i++)
        check(create(40) == KERNEL_DONE, "thread %u", i);
    check(create(40) == KERNEL_FULL, "the 33rd thread, made by the host");
    check(call(KERNEL_CALL_CREATE_THREAD, 1, 40, 0x1000, 0, 0x2000, 0, 0) == KERNEL_FULL, "the 33rd thread, made by a guest call");
}

/* 1,000,000 nanoseconds are 268,111 ticks. */
static void sleeps(void)
{
    uint8_t answer[KERNEL_NEXT_EVENT_LEN];
    group("cases, a sleep of a millisecond");
    start();
    check(call(KERNEL_CALL_SLEEP_THREAD, 1000, 1000000, 0, 0, 0, 0, 0) == KERNEL_DONE, "parks");
    check(kernel_next_event(block, sizeof block, answer, sizeof answer) == KERNEL_DONE && get32(answer, 0) == 1 && get32(answer, 8) == 269111, "wants tick %u", get32(answer, 8));
    check(pass(269110) == KERNEL_DONE && call(KERNEL_CALL_CREATE_EVENT, 269110, 0, 0, 0, 0, 0, 0) == KERNEL_NO_THREAD, "asleep one tick before");
    check(pass(269111) == KERNEL_DONE && call(KERNEL_CALL_CREATE_EVENT, 269111, 0, 0, 0, 0, 0, 0) == KERNEL_DONE, "awake on time");
}

/* Set at 100 for 0 ns with a period of 1,000,000 ns, looked at late: the third period after 100. */
static void timers(void)
{
    uint8_t answer[KERNEL_NEXT_EVENT_LEN];
    group("cases, a repeating timer");
    start();
    made(call(KERNEL_CALL_CREATE_TIMER, 100, 0, 1, 0, 0, 0, 0), 0x10000);
    check(call(KERNEL_CALL_SET_TIMER, 100, 0x10000, 1000000, 0, 0, 0, 0) == KERNEL_DONE, "set");
    check(pass(100 + 2 * 268111 + 7) == KERNEL_DONE, "a late pass");
    check(call(KERNEL_CALL_CLEAR_TIMER, 100 + 2 * 268111 + 8, 0x10000, 0, 0, 0, 0, 0) == KERNEL_DONE, "cleared");
    check(call(KERNEL_CALL_WAIT_SYNCHRONIZATION1, 100 + 2 * 268111 + 9, 0x10000, 0, 0xFFFFFFFF, 0xFFFFFFFF, 0, 0) == KERNEL_DONE, "waited on");
    check(kernel_next_event(block, sizeof block, answer, sizeof answer) == KERNEL_DONE && get32(answer, 8) == 100 + 3 * 268111, "due at %u", get32(answer, 8));
    check(pass(100 + 3 * 268111) == KERNEL_DONE && call(KERNEL_CALL_CANCEL_TIMER, 900000, 0x10000, 0, 0, 0, 0, 0) == KERNEL_DONE, "fired, then cancelled");
    check(call(KERNEL_CALL_WAIT_SYNCHRONIZATION1, 900001, 0x10000, 0, 5, 0, 0, 0) == KERNEL_DONE, "still signalled");
}

static void events(void)
{
    group("cases, an event set and cleared");
    start();
    made(call(KERNEL_CALL_CREATE_EVENT, 1, 0, 1, 0, 0, 0, 0), 0x10000);
    check(call(KERNEL_CALL_WAIT_SYNCHRONIZATION1, 1, 0x10000, 0, 0, 0, 0, 0) == KERNEL_TIMEOUT, "not signalled");
    check(call(KERNEL_CALL_SIGNAL_EVENT, 1, 0x10000, 0, 0, 0, 0, 0) == KERNEL_DONE, "signalled");
    check(call(KERNEL_CALL_WAIT_SYNCHRONIZATION1, 1, 0x10000, 0, 0, 0, 0, 0) == KERNEL_DONE, "taken");
    check(call(KERNEL_CALL_WAIT_SYNCHRONIZATION1, 1, 0x10000, 0, 0, 0, 0, 0) == KERNEL_DONE, "sticky");
    check(call(KERNEL_CALL_CLEAR_EVENT, 1, 0x10000, 0, 0, 0, 0, 0) == KERNEL_DONE, "cleared");
    check(call(KERNEL_CALL_WAIT_SYNCHRONIZATION1, 1, 0x10000, 0, 0, 0, 0, 0) == KERNEL_TIMEOUT, "not signalled any more");
}

void test_cases(void)
{
    semaphores();
    handles();
    limits();
    sleeps();
    timers();
    events();
}
