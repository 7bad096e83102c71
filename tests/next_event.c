/* kernel_next_event: blocks that are not sound, and ticks on blocks made here. */
#include "check.h"
#include "fresh_block.h"
#include "host.h"
#include "kernel.h"
#include "layout.h"
#include "lent.h"
#include "made_block.h"

#include <string.h>

/* What the block is answered, and with which tick; `some` and `tick` count only if it is done. */
static void asked(const uint8_t *bytes, const char *what, uint32_t expected, int some, uint64_t tick)
{
    struct lent block = lend(KERNEL_BLOCK_LEN, BEFORE_UNMAPPED), answer = lend(KERNEL_NEXT_EVENT_LEN, BEFORE_UNMAPPED);
    memcpy(block.at, bytes, KERNEL_BLOCK_LEN);
    keep(&block);
    forbid_writes(&block);
    uint32_t number = kernel_next_event(block.at, block.len, answer.at, answer.len);
    check(number == expected, "%s: answer %u, not %u", what, number, expected);
    check(same(&block), "%s: the block changed", what);
    if (expected == KERNEL_DONE) {
        check(get32(answer.at, 0) == (uint32_t)some && get32(answer.at, 4) == 0 && get64(answer.at, 8) == tick,
              "%s: %u %u %llu", what, get32(answer.at, 0), get32(answer.at, 4), (unsigned long long)get64(answer.at, 8));
        check(same_around(&answer), "%s: a byte outside the answer changed", what);
    } else {
        check(same(&answer), "%s: refused, and the answer slice changed", what);
    }
    give_back(&block);
    give_back(&answer);
}

static void random_blocks(void)
{
    group("kernel_next_event, random bytes");
    static uint8_t block[KERNEL_BLOCK_LEN];
    asked(block, "all zero", KERNEL_UNSOUND, 0, 0);
    memset(block, 0xFF, sizeof block);
    asked(block, "all ones", KERNEL_UNSOUND, 0, 0);
    for (int n = 0; n < 300; n++) {
        /* the whole block, all from some place on, or 16 bytes; never a flag, a count or a number that is known */
        fresh_block(block, random_word());
        size_t from = n % 3 == 0 ? 0 : random_word() % (sizeof block - 16), len = n % 3 == 2 ? 16 : sizeof block - from;
        for (size_t i = 0; i < len; i++)
            block[from + i] = (uint8_t)(random_word() >> 8) | 2;
        asked(block, "random", KERNEL_UNSOUND, 0, 0);
    }
}

/* A fresh block with one word changed. */
struct word { const char *what; uint32_t at, word, answer; };

static const struct word words[] = {
    {"status word", STATUS_WORD, 0xFFFFFFFF, KERNEL_DONE},
    {"32 dead threads", THREAD_COUNT, 32, KERNEL_DONE},
    {"33 threads", THREAD_COUNT, 33, KERNEL_UNSOUND},
    {"2^31 threads", THREAD_COUNT, 0x80000000, KERNEL_UNSOUND},
    {"current thread that is not there", HAS_CURRENT, 1, KERNEL_UNSOUND},
    {"flag of 2 for current", HAS_CURRENT, 2, KERNEL_UNSOUND},
    {"current thread number without the flag", CURRENT_THREAD, 1, KERNEL_UNSOUND},
    {"next TLS slot 32", NEXT_TLS_SLOT, 32, KERNEL_DONE},
    {"next TLS slot 33", NEXT_TLS_SLOT, 33, KERNEL_UNSOUND},
    {"next guest id", NEXT_GUEST_ID, 0xFFFFFFFF, KERNEL_DONE},
    {"all blocked", ALL_BLOCKED, 1, KERNEL_DONE},
    {"flag of 2 for all blocked", ALL_BLOCKED, 2, KERNEL_UNSOUND},
    {"relief", RELIEF, 1, KERNEL_DONE},
    {"flag of 256 for relief", RELIEF, 256, KERNEL_UNSOUND},
    {"no free object", FIRST_FREE_OBJECT, 0, KERNEL_UNSOUND},
    {"free chain without object 1", FIRST_FREE_OBJECT, 2, KERNEL_UNSOUND},
    {"free chain out of the slots", FIRST_FREE_OBJECT, 129, KERNEL_UNSOUND},
    {"no free record", FIRST_FREE_RECORD, 0, KERNEL_UNSOUND},
    {"free records without record 1", FIRST_FREE_RECORD, 2, KERNEL_UNSOUND},
    {"free records out of the records", FIRST_FREE_RECORD, 65, KERNEL_UNSOUND},
    {"a handle counted that is not there", HANDLE_COUNT, 1, KERNEL_UNSOUND},
    {"257 handles", HANDLE_COUNT, 257, KERNEL_UNSOUND},
    {"next handle 0", NEXT_HANDLE, 0, KERNEL_UNSOUND},
    {"next handle below the first", NEXT_HANDLE, 0xFFFF, KERNEL_UNSOUND},
    {"last next handle", NEXT_HANDLE, 0xFFFF8000, KERNEL_DONE},
    {"next handle above the last", NEXT_HANDLE, 0xFFFF8001, KERNEL_OVERFLOW},
    {"greatest next handle", NEXT_HANDLE, 0xFFFFFFFF, KERNEL_OVERFLOW},
    {"dead process object", PROCESS_OBJECT, 1, KERNEL_UNSOUND},
    {"process object that is no slot", PROCESS_OBJECT, 129, KERNEL_UNSOUND},
    {"spare of the head", HEAD_SPARE, 1, KERNEL_UNSOUND},
    {"last spare of the head", HEAD_END - 4, 0x80000000, KERNEL_UNSOUND},
    {"status of no thread", THREADS_AT + STATUS, READY, KERNEL_UNSOUND},
    {"spare of no thread", THREADS_AT + 31 * THREAD_LEN + THREAD_SPARE, 1, KERNEL_UNSOUND},
    {"live slot on the free chain", SLOTS_AT + KIND, RESOURCE_LIMIT, KERNEL_UNSOUND},
    {"unknown kind", SLOTS_AT + KIND, 9, KERNEL_UNSOUND},
    {"count of a dead slot", SLOTS_AT + REFCOUNT, 1, KERNEL_UNSOUND},
    {"mark on a dead slot", SLOTS_AT + PULSED, 1, KERNEL_DONE},
    {"flag of 2 for a mark", SLOTS_AT + PULSED, 2, KERNEL_UNSOUND},
    {"free slot before itself", SLOTS_AT + 5 * SLOT_LEN + A, 6, KERNEL_UNSOUND},
    {"free chain going back", SLOTS_AT + 127 * SLOT_LEN + A, 1, KERNEL_UNSOUND},
    {"free chain ending early", SLOTS_AT + 60 * SLOT_LEN + A, 0, KERNEL_UNSOUND},
    {"unused b of a dead slot", SLOTS_AT + B, 1, KERNEL_UNSOUND},
    {"unused c of a dead slot", SLOTS_AT + C, 1, KERNEL_UNSOUND},
    {"unused x of a dead slot", SLOTS_AT + X, 1, KERNEL_UNSOUND},
    {"unused y of a dead slot", SLOTS_AT + Y + 4, 1, KERNEL_UNSOUND},
    {"entry of no handle", HANDLES_AT, 0x10000, KERNEL_UNSOUND},
    {"last entry of no handle", HANDLES_AT + 255 * HANDLE_LEN + HANDLE_OBJECT, 1, KERNEL_UNSOUND},
    {"thread of a free record", RECORDS_AT + RECORD_THREAD, 1, KERNEL_UNSOUND},
    {"address of a free record", RECORDS_AT + RECORD_ADDRESS, 4, KERNEL_UNSOUND},
    {"free record before itself", RECORDS_AT + 7 * RECORD_LEN + RECORD_NEXT, 8, KERNEL_UNSOUND},
    {"free records going back", RECORDS_AT + 63 * RECORD_LEN + RECORD_NEXT, 1, KERNEL_UNSOUND},
    {"free records ending early", RECORDS_AT + 30 * RECORD_LEN + RECORD_NEXT, 0, KERNEL_UNSOUND},
    {"free records out of the records", RECORDS_AT + RECORD_NEXT, 65, KERNEL_UNSOUND},
    {"dead object kept for no thread", KEPT_AT, 1, KERNEL_UNSOUND},
    {"object kept for thread 31", KEPT_AT + 31 * 4, 1, KERNEL_UNSOUND},
    {"first spare byte at the end", SPARE_AT, 1, KERNEL_UNSOUND},
    {"last spare byte", KERNEL_BLOCK_LEN - 4, 0x80000000, KERNEL_UNSOUND},
};

static void changed_words(void)
{
    group("kernel_next_event, a fresh block with a word changed");
    uint8_t block[KERNEL_BLOCK_LEN];
    fresh_block(block, 0x10);
    asked(block, "fresh", KERNEL_DONE, 0, 0);
    for (size_t i = 0; i < sizeof words / sizeof *words; i++) {
        fresh_block(block, 0x10);
        put32(block, words[i].at, words[i].word);
        asked(block, words[i].what, words[i].answer, 0, 0);
    }
}

static void ticks(void)
{
    group("kernel_next_event, ticks");
    uint8_t block[KERNEL_BLOCK_LEN];
    fresh_block(block, 0x10);
    uint32_t ready = add_thread(block, READY);
    wake_at(block, ready, 5);
    asked(block, "a thread that is not blocked", KERNEL_DONE, 0, 0);
    uint32_t timer = add_timer(block, 40);
    asked(block, "a timer that nobody waits on", KERNEL_DONE, 0, 0);
    uint32_t sleeper = add_thread(block, SLEEPING);
    asked(block, "a sleeper without a wake tick", KERNEL_DONE, 0, 0);
    wake_at(block, sleeper, UINT64_MAX);
    asked(block, "the greatest tick", KERNEL_DONE, 1, UINT64_MAX);
    wake_at(block, add_thread(block, WAIT_ARBITER), 0x123456789ABCDEFull);
    asked(block, "the lesser of two", KERNEL_DONE, 1, 0x123456789ABCDEFull);
    uint32_t waiter = add_thread(block, WAIT_SYNC);
    asked(block, "a wait on nothing", KERNEL_DONE, 1, 0x123456789ABCDEFull);
    wait_on(block, waiter, add_timer(block, UINT64_MAX));
    wait_on(block, waiter, timer);
    asked(block, "a timer that is waited on", KERNEL_DONE, 1, 40);
    wake_at(block, waiter, 39);
    asked(block, "a time-out before the timer", KERNEL_DONE, 1, 39);
    put32(block, slot_at(timer) + C, 0);
    asked(block, "a disarmed timer with a tick", KERNEL_UNSOUND, 0, 0);
    put64(block, slot_at(timer) + X, 0);
    put32(block, waiter + HAS_WAKEUP, 0);
    put64(block, waiter + WAKEUP_AT, 0);
    asked(block, "a disarmed timer", KERNEL_DONE, 1, 0x123456789ABCDEFull);
    put32(block, NEXT_HANDLE, 0xFFFF8001);
    asked(block, "used up handles", KERNEL_OVERFLOW, 0, 0);
    put32(block, waiter + STATUS, READY);
    asked(block, "a list in a thread that does not wait", KERNEL_UNSOUND, 0, 0);
}

void test_next_event(void)
{
    random_blocks();
    changed_words();
    ticks();
}
