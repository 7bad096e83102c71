/*
 * How the time of kernel_next_event and of a pass with nothing due grows with threads, objects and handles: each is made by
 * exports on a fresh block until there are so many, the others left as they are.
 */
#include "../tests/layout.h"
#include "clock.h"
#include "host.h"

#include <stdio.h>
#include <stdlib.h>
#include <string.h>

static void must(uint32_t number)
{
    if (number != KERNEL_DONE) {
        fprintf(stderr, "not accepted: %u\n", number);
        exit(1);
    }
}

static void create(uint32_t priority)
{
    must(kernel_create_thread(original, sizeof original, bank, sizeof bank, answer, KERNEL_CREATE_THREAD_LEN, 0x100000, 0x1000, 0, priority, 0));
}

static void pass(uint8_t *on, uint64_t tick)
{
    must(kernel_schedule(on, KERNEL_BLOCK_LEN, bank, sizeof bank, processor, sizeof processor, answer, KERNEL_SCHEDULE_LEN, tick));
}

/* One thread, which runs. */
static void start(void)
{
    must(kernel_fresh_start(original, sizeof original, bank, sizeof bank, 0x10));
    create(63);
    pass(original, 0);
}

/* The thread that runs sleeps for a long time. */
static void sleep_long(void)
{
    must(guest(original, KERNEL_CALL_SLEEP_THREAD, (const uint32_t[6]){0, 0x10000000}, 0));
}

static void threads(uint32_t count)
{
    start();
    while (--count > 0) {
        create(24);
        pass(original, 0);
        sleep_long();
        pass(original, 0);
    }
}

/* Events, each with one handle. */
static void objects(uint32_t count)
{
    start();
    while (count-- > 0)
        must(guest(original, KERNEL_CALL_CREATE_EVENT, (const uint32_t[6]){0}, 0));
}

/* Handles to one event. */
static void handles(uint32_t count)
{
    objects(1);
    uint32_t handle = get32(processor, 4);
    while (--count > 0)
        must(guest(original, KERNEL_CALL_DUPLICATE_HANDLE, (const uint32_t[6]){0, handle}, 0));
}

static void copy(void)
{
    memcpy(block, original, sizeof block);
    __asm__ volatile("" ::: "memory");
}

static void next_event(void)
{
    must(kernel_next_event(original, sizeof original, answer, KERNEL_NEXT_EVENT_LEN));
}

static void quiet_pass(void)
{
    copy();
    pass(block, 0);
}

static void measure(const char *what, void (*make)(uint32_t), const uint32_t *counts, size_t n)
{
    for (size_t i = 0; i < n; i++) {
        make(counts[i]);
        double one = microseconds(copy), look = microseconds(next_event), all = microseconds(quiet_pass) - one;
        printf("%-8s %4u   next_event %6.2f us %5.1f copies   pass %6.2f us %5.1f copies\n", what, counts[i], look, look / one, all, all / one);
    }
}

int main(void)
{
    microseconds(copy); /* the first figures of a processor that was idle are too high */
    measure("threads", threads, (const uint32_t[]){1, 8, 16, 32}, 4);
    measure("objects", objects, (const uint32_t[]){1, 32, 64, 128}, 4);
    measure("handles", handles, (const uint32_t[]){1, 64, 128, 256}, 4);
    return 0;
}
