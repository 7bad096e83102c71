/* kernel_end_thread: threads of every status, and what goes with a thread. */
#include "check.h"
#include "fresh_block.h"
#include "host.h"
#include "kernel.h"
#include "layout.h"
#include "lent.h"
#include "made_block.h"

#include <string.h>

/* Ending the thread leaves this block, and it cannot be ended again. */
static void ends(const uint8_t *before, uint32_t thread, const char *what, const uint8_t *after)
{
    struct lent block = lend(KERNEL_BLOCK_LEN, BEFORE_UNMAPPED);
    memcpy(block.at, before, KERNEL_BLOCK_LEN);
    keep(&block);
    uint32_t number = kernel_end_thread(block.at, block.len, thread);
    check(number == KERNEL_DONE, "%s: answer %u", what, number);
    size_t at = first_difference(&block, after);
    check(at == KERNEL_BLOCK_LEN, "%s: byte %zu differs", what, at);
    check(same_around(&block), "%s: a byte outside the block changed", what);
    number = kernel_end_thread(block.at, block.len, thread);
    check(number == KERNEL_NO_THREAD, "%s: ended twice, answer %u", what, number);
    give_back(&block);
}

static void statuses(void)
{
    group("kernel_end_thread, every status");
    uint8_t block[KERNEL_BLOCK_LEN], after[KERNEL_BLOCK_LEN];
    for (uint32_t status = RUNNING; status <= DORMANT; status++) {
        fresh_block(block, 0x10);
        add_thread(block, READY);
        uint32_t thread = add_thread(block, status);
        make_current(block, 1);
        memcpy(after, block, sizeof block);
        put32(after, thread + STATUS, DEAD);
        put32(after, HAS_CURRENT, 0);
        put32(after, CURRENT_THREAD, 0);
        put32(block, thread + WAIT_ALL, 1);
        put32(block, thread + WAIT_RESULT, 1);
        put32(block, thread + WAIT_INDEX, LIST - 1);
        put32(block, thread + WAIT_SYSCALL, 4);
        put32(block, thread + HAS_WAIT_ADDRESS, 1);
        put32(block, thread + WAIT_ADDRESS, 0xFFFFFFFC);
        wake_at(block, thread, UINT64_MAX);
        ends(block, 1, "the current thread", after);
        /* another one stays current */
        put32(block, CURRENT_THREAD, 0);
        put32(after, HAS_CURRENT, 1);
        if (status != RUNNING)
            ends(block, 1, "a thread that is not current", after);
    }
}

static void freed(uint8_t *after, uint32_t object)
{
    memset(after + slot_at(object), 0, SLOT_LEN);
    put32(after, slot_at(object) + A, get32(after, FIRST_FREE_OBJECT));
    put32(after, FIRST_FREE_OBJECT, object);
}

static void holdings(void)
{
    group("kernel_end_thread, what it holds");
    uint8_t block[KERNEL_BLOCK_LEN], after[KERNEL_BLOCK_LEN];
    fresh_block(block, 0x10);
    add_thread(block, READY);
    uint32_t thread = add_thread(block, WAIT_SYNC);
    uint32_t mine = add_mutex(block, 1, 0xFFFFFFFF), others = add_mutex(block, 0, 2), timer = add_timer(block, 9);
    uint32_t first = add_object(block, EVENT), arbiter = add_object(block, ARBITER), last = add_object(block, SEMAPHORE);
    wait_on(block, thread, first);
    wait_on(block, thread, timer);
    wait_on(block, thread, arbiter);
    wait_on(block, thread, timer);
    wait_on(block, thread, mine);
    /* up to the last place of the list */
    while (get32(block, thread + WAIT_COUNT) + 1 < LIST)
        wait_on(block, thread, timer);
    wait_on(block, thread, last);
    /* two records in the arbiter, which goes with its last holder */
    put32(block, FIRST_FREE_RECORD, 3);
    put32(block, slot_at(arbiter) + A, 1);
    put32(block, record_at(1) + RECORD_ADDRESS, 8);
    put32(block, record_at(1) + RECORD_NEXT, 2);
    put32(block, record_at(2) + RECORD_THREAD, 1);
    put32(block, record_at(2) + RECORD_NEXT, 0);

    memcpy(after, block, sizeof block);
    put32(after, thread + STATUS, DEAD);
    memset(after + thread + WAIT_OBJECTS, 0, 4 * LIST);
    put32(after, thread + WAIT_COUNT, 0);
    freed(after, first);
    put32(after, slot_at(timer) + REFCOUNT, 1);
    freed(after, arbiter);
    put32(after, FIRST_FREE_RECORD, 1);
    put32(after, record_at(1) + RECORD_ADDRESS, 0);
    put32(after, record_at(2) + RECORD_THREAD, 0);
    put32(after, record_at(2) + RECORD_NEXT, 3);
    put32(after, slot_at(mine) + REFCOUNT, 1);
    freed(after, last);
    put32(after, slot_at(mine) + A, 0);
    put32(after, slot_at(mine) + B, 0);
    put32(after, slot_at(mine) + C, 0);
    ends(block, 1, "a list, records and mutexes", after);
    check(get32(after, slot_at(others) + B) == 0 && get32(after, slot_at(others) + C) == 2, "another thread's mutex");
}

void test_end_thread(void)
{
    statuses();
    holdings();
}
