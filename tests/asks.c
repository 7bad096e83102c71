/* kernel_satisfied_now and kernel_quiet_release: what they find. */
#include "check.h"
#include "fresh_block.h"
#include "host.h"
#include "kernel.h"
#include "layout.h"
#include "lent.h"
#include "made_block.h"

#include <string.h>

enum { NONE = 99, FIRST_HANDLE = KERNEL_FIRST_HANDLE, MOST = KERNEL_SATISFIED_NOW_LIST };

/* What a wait on n handles finds: the index, or NONE; the objects are those of the handles. */
static void finds(const uint8_t *block, uint32_t n, const uint32_t *handles, const uint32_t *objects, uint32_t all, uint64_t tick, const char *what, uint32_t expected, uint32_t index)
{
    uint8_t list[4 * 16];
    struct lent answer = lend(KERNEL_SATISFIED_NOW_LEN, BEFORE_UNMAPPED);
    for (uint32_t i = 0; i < n; i++)
        put32(list, 4 * i, handles[i]);
    keep(&answer);
    uint32_t number = kernel_satisfied_now(block, KERNEL_BLOCK_LEN, list, 4 * n, answer.at, answer.len, all, tick);
    check(number == expected, "%s: answer %u, not %u", what, number, expected);
    if (expected != KERNEL_DONE) {
        check(same(&answer), "%s: refused, and a byte changed", what);
    } else {
        check(get32(answer.at, 0) == (index != NONE) && get32(answer.at, 4) == (index == NONE ? 0 : index), "%s: found %u at %u", what, get32(answer.at, 0), get32(answer.at, 4));
        for (uint32_t i = 0; i < MOST; i++)
            check(get32(answer.at, 8 + 4 * i) == (index == NONE || i >= n ? 0 : objects[i]), "%s: object %u of place %u", what, get32(answer.at, 8 + 4 * i), i);
    }
    give_back(&answer);
}

static void satisfied(void)
{
    group("kernel_satisfied_now, what it finds");
    uint8_t block[KERNEL_BLOCK_LEN];
    memset(block, 0, sizeof block);
    finds(block, 0, NULL, NULL, 1, 0, "all zero", KERNEL_UNSOUND, NONE);
    fresh_block(block, 0x10);
    finds(block, 0, NULL, NULL, 1, 0, "no current thread", KERNEL_DONE, NONE);
    add_thread(block, SLEEPING);
    put32(block, HAS_CURRENT, 1);
    finds(block, 0, NULL, NULL, 1, 0, "all of none", KERNEL_DONE, 0);
    finds(block, 0, NULL, NULL, 0, 0, "any of none", KERNEL_DONE, NONE);
    uint32_t semaphore = add_object(block, SEMAPHORE), event = add_object(block, EVENT), mutex = add_object(block, MUTEX);
    add_handle(block, semaphore);
    add_handle(block, event);
    add_handle(block, mutex);
    uint32_t timer = add_timer(block, 50);
    put32(block, slot_at(semaphore) + A, 1);
    const uint32_t h[] = {FIRST_HANDLE + 1, FIRST_HANDLE, FIRST_HANDLE + 2, FIRST_HANDLE + 3, FIRST_HANDLE, FIRST_HANDLE, FIRST_HANDLE, FIRST_HANDLE, FIRST_HANDLE};
    const uint32_t o[] = {event, semaphore, mutex, timer, semaphore, semaphore, semaphore, semaphore};
    finds(block, MOST, h, o, 0, 49, "any of eight", KERNEL_DONE, 1);
    finds(block, MOST, h, o, 2, 49, "all of eight", KERNEL_DONE, NONE);
    finds(block, 2, h + 1, o + 1, 1, 49, "all of a semaphore and a mutex", KERNEL_DONE, 0);
    finds(block, MOST + 1, h, o, 0, 49, "nine", KERNEL_DONE, NONE);
    finds(block, MOST, h, o, 0, 50, "a timer is due", KERNEL_DONE, NONE);
    const uint32_t odd[] = {FIRST_HANDLE, 0, 0xFFFF8000, 0xFFFF8001, FIRST_HANDLE + 4};
    for (uint32_t i = 1; i < 5; i++)
        finds(block, 2, (const uint32_t[]){odd[0], odd[i]}, o, 0, 49, "a handle that is not open", KERNEL_DONE, NONE);
    put32(block, slot_at(semaphore) + A, 0xFFFFFFFF);
    put32(block, slot_at(mutex) + A, 1);
    finds(block, 3, h, o, 0, 49, "a negative count, and the thread's own mutex", KERNEL_DONE, 2);
    put32(block, NEXT_HANDLE, 0xFFFF8001);
    finds(block, 0, NULL, NULL, 1, 0, "used up handles", KERNEL_OVERFLOW, NONE);
}

/* What letting go of the first handle tells. */
static void tells(const uint8_t *block, uint32_t handle, uint64_t tick, const char *what, uint32_t expected, uint32_t object, uint32_t frees)
{
    struct lent answer = lend(KERNEL_QUIET_RELEASE_LEN, BEFORE_UNMAPPED);
    keep(&answer);
    uint32_t number = kernel_quiet_release(block, KERNEL_BLOCK_LEN, answer.at, answer.len, handle, tick);
    check(number == expected, "%s: answer %u, not %u", what, number, expected);
    if (expected != KERNEL_DONE)
        check(same(&answer), "%s: refused, and a byte changed", what);
    else
        check(get32(answer.at, 0) == (object != 0) && get32(answer.at, 4) == object && get32(answer.at, 8) == frees, "%s: %u, %u, %u", what, get32(answer.at, 0), get32(answer.at, 4), get32(answer.at, 8));
    give_back(&answer);
}

static void quiet(void)
{
    group("kernel_quiet_release, what it tells");
    uint8_t block[KERNEL_BLOCK_LEN], other[KERNEL_BLOCK_LEN];
    fresh_block(block, 0x10);
    uint32_t running = add_thread(block, RUNNING), waiting = add_thread(block, WAIT_SYNC), ready = add_thread(block, READY);
    put32(block, HAS_CURRENT, 1);
    put32(block, running + PRIORITY, 20);
    put32(block, ready + PRIORITY, 20);
    uint32_t mutex = add_object(block, MUTEX), event = add_object(block, EVENT);
    add_handle(block, mutex);
    add_handle(block, event);
    wait_on(block, waiting, event);
    put32(block, slot_at(mutex) + A, 1);
    put32(block, slot_at(mutex) + C, 1);
    tells(block, FIRST_HANDLE, 9, "frees it", KERNEL_DONE, mutex, 1);
    tells(block, FIRST_HANDLE + 1, 9, "no mutex", KERNEL_DONE, 0, 0);
    tells(block, FIRST_HANDLE + 2, 9, "not open", KERNEL_DONE, 0, 0);
    tells(block, 0xFFFF8000, 9, "the thread itself", KERNEL_DONE, 0, 0);
    tells(block, FIRST_HANDLE, 17924544, "not starving", KERNEL_DONE, mutex, 1);
    tells(block, FIRST_HANDLE, 17924545, "starving", KERNEL_DONE, 0, 0);
    const struct { uint32_t at, word; const char *what; } loud[] = {
        {running + STATUS, READY, "not Running"}, {running + WAITED, 1, "has waited"}, {running + WAIT_RESULT, 2, "a result"},
        {running + WAIT_SYSCALL, 1, "a call"}, {ready + PRIORITY, 19, "one more urgent"}, {slot_at(128) + PULSED, 1, "a mark"},
        {HAS_CURRENT, 0, "no current thread"},
    };
    for (size_t i = 0; i < sizeof loud / sizeof *loud; i++) {
        memcpy(other, block, sizeof block);
        if (loud[i].at == HAS_CURRENT)
            put32(other, running + STATUS, READY);
        put32(other, loud[i].at, loud[i].word);
        tells(other, FIRST_HANDLE, 9, loud[i].what, KERNEL_DONE, 0, 0);
        put32(other, slot_at(mutex) + C, 2);
        tells(other, FIRST_HANDLE, 9, "held twice", KERNEL_DONE, mutex, 0);
    }
    wait_on(block, waiting, mutex);
    tells(block, FIRST_HANDLE, 9, "waited on", KERNEL_DONE, 0, 0);
    put32(block, NEXT_HANDLE, 0xFFFF8001);
    tells(block, FIRST_HANDLE, 9, "used up handles", KERNEL_OVERFLOW, 0, 0);
    put32(block, NEXT_HANDLE, 0);
    tells(block, FIRST_HANDLE, 9, "not sound", KERNEL_UNSOUND, 0, 0);
}

void test_asks(void)
{
    satisfied();
    quiet();
}
