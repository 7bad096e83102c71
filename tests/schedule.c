/* kernel_schedule: timers, waits, the choice, and the contexts that go and come. */
#include "check.h"
#include "fresh_block.h"
#include "host.h"
#include "kernel.h"
#include "layout.h"
#include "lent.h"
#include "made_block.h"

#include <string.h>

enum { NOBODY = 99 };

/* What a pass answers; after is the whole block afterwards, or NULL if nothing may change. saved and restored are threads or NOBODY. */
static void passes(const uint8_t *before, uint64_t tick, const char *what, uint32_t expected, const uint8_t *after, uint32_t saved, uint32_t restored, uint32_t switched)
{
    struct lent block = lend(KERNEL_BLOCK_LEN, BEFORE_UNMAPPED), bank = lend(KERNEL_BANK_LEN, AFTER_UNMAPPED);
    struct lent processor = lend(KERNEL_PROCESSOR_LEN, BEFORE_UNMAPPED), answer = lend(KERNEL_SCHEDULE_LEN, BEFORE_UNMAPPED);
    memcpy(block.at, before, KERNEL_BLOCK_LEN);
    uint8_t rows[KERNEL_BANK_LEN], context[KERNEL_CONTEXT_LEN];
    memcpy(rows, bank.at, sizeof rows);
    memcpy(context, processor.at, sizeof context);
    keep(&block);
    keep(&bank);
    keep(&processor);
    keep(&answer);
    uint32_t number = kernel_schedule(block.at, block.len, bank.at, bank.len, processor.at, processor.len, answer.at, answer.len, tick);
    check(number == expected, "%s: answer %u, not %u", what, number, expected);
    if (after == NULL) {
        check(same(&block) && same(&bank) && same(&processor) && same(&answer), "%s: refused, and a byte changed", what);
    } else {
        size_t at = first_difference(&block, after);
        check(at == KERNEL_BLOCK_LEN, "%s: byte %zu differs", what, at);
        if (saved != NOBODY)
            memcpy(rows + KERNEL_CONTEXT_LEN * saved, context, KERNEL_CONTEXT_LEN);
        if (restored != NOBODY)
            memcpy(context, rows + KERNEL_CONTEXT_LEN * restored, KERNEL_CONTEXT_LEN);
        check(memcmp(rows, bank.at, sizeof rows) == 0, "%s: the bank differs", what);
        check(memcmp(context, processor.at, sizeof context) == 0, "%s: the processor differs", what);
        check(get32(answer.at, 0) == switched, "%s: switched %u, not %u", what, get32(answer.at, 0), switched);
        check(same_around(&block) && same_around(&bank) && same_around(&processor) && same_around(&answer), "%s: a byte outside what was lent changed", what);
    }
    give_back(&block);
    give_back(&bank);
    give_back(&processor);
    give_back(&answer);
}

static uint32_t with_priority(uint8_t *block, uint32_t status, uint32_t priority)
{
    uint32_t thread = add_thread(block, status);
    put32(block, thread + PRIORITY, priority);
    return thread;
}

static void picks(void)
{
    group("kernel_schedule, the first pick");
    uint8_t block[KERNEL_BLOCK_LEN], after[KERNEL_BLOCK_LEN];
    fresh_block(block, 0x10);
    with_priority(block, READY, 5);
    with_priority(block, READY, 3);
    with_priority(block, READY, 3);
    memcpy(after, block, sizeof block);
    put32(after, thread_at(1) + STATUS, RUNNING);
    make_current(after, 1);
    passes(block, 9, "5, 3, 3 and no current", KERNEL_DONE, after, NOBODY, 1, 1);
    make_current(block, 2);
    passes(block, 9, "the current one Ready", KERNEL_DONE, after, 2, 1, 1);
    put32(block, thread_at(2) + STATUS, RUNNING);
    memcpy(after, block, sizeof block);
    passes(block, 9, "the current one Running", KERNEL_DONE, after, NOBODY, NOBODY, 0);
    put32(block, thread_at(2) + PRIORITY, 4);
    memcpy(after, block, sizeof block);
    put32(after, thread_at(2) + STATUS, READY);
    put32(after, thread_at(1) + STATUS, RUNNING);
    make_current(after, 1);
    passes(block, 9, "a more urgent one", KERNEL_DONE, after, 2, 1, 1);
}

static void sleepers(void)
{
    group("kernel_schedule, waits until a tick");
    uint8_t block[KERNEL_BLOCK_LEN], after[KERNEL_BLOCK_LEN];
    fresh_block(block, 0x10);
    uint32_t thread = add_thread(block, SLEEPING);
    make_current(block, 0);
    wake_at(block, thread, 100);
    memcpy(after, block, sizeof block);
    put32(after, thread + WAITED, 1);
    make_none_current(after);
    passes(block, 99, "one tick too early", KERNEL_DONE, after, 0, NOBODY, 1);
    memcpy(after, block, sizeof block);
    put32(after, thread + STATUS, RUNNING);
    put32(after, thread + HAS_WAKEUP, 0);
    put64(after, thread + WAKEUP_AT, 0);
    passes(block, 100, "on time", KERNEL_DONE, after, NOBODY, NOBODY, 0);
    make_none_current(block);
    put32(block, thread + WAITED, 1);
    put32(after, thread + WAITED, 0);
    put64(after, thread + RUNNING_SINCE, 100);
    passes(block, 100, "on time, and not current", KERNEL_DONE, after, NOBODY, 0, 1);
    put32(block, NEXT_HANDLE, 0xFFFF8001);
    passes(block, 100, "used up handles", KERNEL_OVERFLOW, NULL, NOBODY, NOBODY, 0);
}

/* Satisfaction before time-out, the lowest number first. */
static void objects(void)
{
    group("kernel_schedule, waits on objects");
    uint8_t block[KERNEL_BLOCK_LEN], after[KERNEL_BLOCK_LEN];
    fresh_block(block, 0x10);
    uint32_t first = add_thread(block, WAIT_SYNC), second = add_thread(block, WAIT_SYNC);
    uint32_t timer = add_timer(block, 50);
    put64(block, slot_at(timer) + Y, 30);
    wait_on(block, first, timer);
    wait_on(block, second, timer);
    wake_at(block, first, 10);
    wake_at(block, second, 60);
    memcpy(after, block, sizeof block);
    /* a one-shot that came due at 50 goes to thread 0, which is late as well; thread 1 is late at 60 */
    put64(after, slot_at(timer) + X, 80);
    put32(after, slot_at(timer) + REFCOUNT, 1);
    for (uint32_t i = 0; i < 2; i++) {
        uint32_t at = thread_at(i);
        put32(after, at + STATUS, i == 0 ? RUNNING : READY);
        put32(after, at + WAIT_COUNT, 0);
        put32(after, at + WAIT_OBJECTS, 0);
        put32(after, at + HAS_WAKEUP, 0);
        put64(after, at + WAKEUP_AT, 0);
        put32(after, at + WAIT_RESULT, i == 0 ? 1 : 2);
    }
    make_current(after, 0);
    passes(block, 60, "due and late", KERNEL_DONE, after, NOBODY, 0, 1);
    put64(block, slot_at(timer) + X, 0);
    put64(block, slot_at(timer) + Y, 1);
    passes(block, UINT64_MAX, "periods that do not fit", KERNEL_OVERFLOW, NULL, NOBODY, NOBODY, 0);
}

static void starving(void)
{
    group("kernel_schedule, starving and relief");
    enum { LEAD = 17924544 };
    uint8_t block[KERNEL_BLOCK_LEN], after[KERNEL_BLOCK_LEN];
    fresh_block(block, 0x10);
    uint32_t thread = with_priority(block, RUNNING, 7);
    with_priority(block, READY, 6);
    put32(block, thread_at(1) + STATUS, DORMANT);
    with_priority(block, READY, 9);
    with_priority(block, READY, 9);
    make_current(block, 0);
    put64(block, thread + RUNNING_SINCE, 1000);
    memcpy(after, block, sizeof block);
    passes(block, 1000 + LEAD, "not starving", KERNEL_DONE, after, NOBODY, NOBODY, 0);
    put32(after, RELIEF, 1);
    put32(after, thread + STATUS, READY);
    put32(after, thread_at(2) + STATUS, RUNNING);
    make_current(after, 2);
    passes(block, 1001 + LEAD, "starving", KERNEL_DONE, after, 0, 2, 1);
    put32(block, RELIEF, 1);
    memcpy(after, block, sizeof block);
    put32(after, RELIEF, 0);
    passes(block, 1001 + LEAD, "starving, and relief was on", KERNEL_DONE, after, NOBODY, NOBODY, 0);
    passes(block, 999, "a tick before it began", KERNEL_DONE, block, NOBODY, NOBODY, 0);
}

void test_schedule(void)
{
    picks();
    sleepers();
    objects();
    starving();
}
