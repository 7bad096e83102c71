/* kernel_create_thread: the place, TLS slot, row and number of a new thread, and no room. */
#include "check.h"
#include "fresh_block.h"
#include "host.h"
#include "kernel.h"
#include "layout.h"
#include "lent.h"
#include "made_block.h"

#include <string.h>

enum { WORD = 0x3F, TOP = 0x0FFFFFF8, ARG = 0x89ABCDEF, CORE = 0xFFFFFFFE };

/* The row of a new thread, from docs/STATE.md. */
static void row(uint8_t *at, uint32_t status_word, uint32_t entry, uint32_t tls)
{
    memset(at, 0, KERNEL_CONTEXT_LEN);
    put32(at, 4 * 0, ARG);
    put32(at, 4 * 13, TOP);
    put32(at, 4 * 14, 0xFFFFFFF0);
    put32(at, 4 * 15, entry & ~1u);
    put32(at, 4 * 16, (status_word & ~0x20u) | (entry & 1) << 5);
    put32(at, 4 * 50, 0x40000000);
    put32(at, 4 * 51, tls);
}

/* The record of a new thread in a block. */
static void record(uint8_t *block, uint32_t thread, uint32_t entry, uint32_t priority, uint32_t tls)
{
    uint32_t at = thread_at(thread);
    memset(block + at, 0, THREAD_LEN);
    put32(block, at + STATUS, READY);
    put32(block, at + PRIORITY, priority);
    put32(block, at + ENTRY, entry);
    put32(block, at + STACK_TOP, TOP);
    put32(block, at + TLS, tls);
    put32(block, at + PROCESSOR_ID, CORE);
    put32(block, at + WAITED, 1);
    put32(block, at + GUEST_ID, get32(block, NEXT_GUEST_ID));
    put32(block, NEXT_GUEST_ID, get32(block, NEXT_GUEST_ID) + 1);
}

/* What making a thread answers; after is the whole block afterwards, or NULL if nothing may change. */
static void makes(const uint8_t *before, uint32_t entry, uint32_t priority, const char *what, uint32_t expected, const uint8_t *after, uint32_t thread)
{
    struct lent block = lend(KERNEL_BLOCK_LEN, BEFORE_UNMAPPED), bank = lend(KERNEL_BANK_LEN, AFTER_UNMAPPED), answer = lend(KERNEL_CREATE_THREAD_LEN, BEFORE_UNMAPPED);
    memcpy(block.at, before, KERNEL_BLOCK_LEN);
    uint8_t rows[KERNEL_BANK_LEN];
    memcpy(rows, bank.at, sizeof rows);
    keep(&block);
    keep(&bank);
    keep(&answer);
    uint32_t number = kernel_create_thread(block.at, block.len, bank.at, bank.len, answer.at, answer.len, entry, TOP, ARG, priority, CORE);
    check(number == expected, "%s: answer %u, not %u", what, number, expected);
    if (after == NULL) {
        check(same(&block) && same(&bank) && same(&answer), "%s: refused, and a byte changed", what);
    } else {
        size_t at = first_difference(&block, after);
        check(at == KERNEL_BLOCK_LEN, "%s: byte %zu differs", what, at);
        row(rows + KERNEL_CONTEXT_LEN * thread, get32(before, STATUS_WORD), entry, get32(after, thread_at(thread) + TLS));
        check(memcmp(rows, bank.at, sizeof rows) == 0, "%s: the bank differs", what);
        check(get32(answer.at, 0) == thread, "%s: thread %u, not %u", what, get32(answer.at, 0), thread);
        check(same_around(&block) && same_around(&bank) && same_around(&answer), "%s: a byte outside what was lent changed", what);
    }
    give_back(&block);
    give_back(&bank);
    give_back(&answer);
}

static void new_places(void)
{
    group("kernel_create_thread, new places up to the 33rd");
    uint8_t block[KERNEL_BLOCK_LEN], after[KERNEL_BLOCK_LEN];
    fresh_block(block, WORD);
    for (uint32_t i = 0; i < THREADS; i++) {
        uint32_t priority = i == 0 ? 63 : i == 1 ? 64 : i == 2 ? 0xFFFFFFFF : i;
        memcpy(after, block, sizeof block);
        record(after, i, 0x100000 + i, priority < 63 ? priority : 63, i);
        put32(after, THREAD_COUNT, i + 1);
        put32(after, NEXT_TLS_SLOT, i + 1);
        makes(block, 0x100000 + i, priority, "a new place", KERNEL_DONE, after, i);
        memcpy(block, after, sizeof block);
    }
    makes(block, 0, 0, "the 33rd thread", KERNEL_FULL, NULL, 0);
    put32(block, NEXT_HANDLE, 0xFFFF8001);
    makes(block, 0, 0, "the 33rd thread, and used up handles", KERNEL_FULL, NULL, 0);
    put32(block, NEXT_GUEST_ID, 0xFFFFFFFF);
    makes(block, 0, 0, "the 33rd thread, and used up guest ids", KERNEL_FULL, NULL, 0);
}

static void guest_ids(void)
{
    group("kernel_create_thread, the last guest id");
    uint8_t block[KERNEL_BLOCK_LEN], after[KERNEL_BLOCK_LEN];
    fresh_block(block, WORD);
    put32(block, NEXT_GUEST_ID, 0xFFFFFFFE);
    memcpy(after, block, sizeof block);
    record(after, 0, 1, 0, 0);
    put32(after, THREAD_COUNT, 1);
    put32(after, NEXT_TLS_SLOT, 1);
    makes(block, 1, 0, "the last guest id", KERNEL_DONE, after, 0);
    makes(after, 1, 0, "none is left", KERNEL_OVERFLOW, NULL, 0);
}

/* Threads 0 to 3: ready, Dead and named by a handle, Dead, ready; each has a kept object but the last. */
static void places_of_dead(void)
{
    group("kernel_create_thread, places of Dead threads");
    uint8_t block[KERNEL_BLOCK_LEN], after[KERNEL_BLOCK_LEN];
    fresh_block(block, WORD);
    for (uint32_t i = 0; i < 4; i++)
        add_thread(block, i == 1 || i == 2 ? DEAD : READY);
    for (uint32_t i = 0; i < 3; i++) {
        uint32_t object = add_object(block, THREAD);
        put32(block, slot_at(object) + A, i);
        put32(block, slot_at(object) + REFCOUNT, 1);
        put32(block, kept_at(i), object);
    }
    add_handle(block, 2);
    /* records of threads 2, 0 and 2 in an arbiter */
    uint32_t arbiter = add_object(block, ARBITER);
    add_handle(block, arbiter);
    put32(block, slot_at(arbiter) + A, 1);
    for (uint32_t i = 1; i <= 3; i++) {
        put32(block, record_at(i) + RECORD_THREAD, i == 2 ? 0 : 2);
        put32(block, record_at(i) + RECORD_ADDRESS, 4 * i);
        put32(block, record_at(i) + RECORD_NEXT, i == 3 ? 0 : i + 1);
    }
    put32(block, FIRST_FREE_RECORD, 4);

    memcpy(after, block, sizeof block);
    record(after, 2, 0x2000, 5, 1);
    put32(after, kept_at(2), 0);
    memset(after + slot_at(3), 0, SLOT_LEN);
    put32(after, slot_at(3) + A, get32(block, FIRST_FREE_OBJECT));
    put32(after, FIRST_FREE_OBJECT, 3);
    put32(after, slot_at(arbiter) + A, 2);
    put32(after, record_at(2) + RECORD_NEXT, 0);
    memset(after + record_at(1), 0, RECORD_LEN);
    memset(after + record_at(3), 0, RECORD_LEN);
    put32(after, FIRST_FREE_RECORD, 1);
    put32(after, record_at(1) + RECORD_NEXT, 3);
    put32(after, record_at(3) + RECORD_NEXT, 4);
    makes(block, 0x2000, 5, "a Dead thread's place", KERNEL_DONE, after, 2);

    /* the only Dead thread is named: a new place, and the slot of the Dead one */
    memcpy(block, after, sizeof block);
    record(after, 4, 0x3001, 6, 2);
    put32(after, THREAD_COUNT, 5);
    makes(block, 0x3001, 6, "a Dead thread that is named", KERNEL_DONE, after, 4);
}

void test_create_thread(void)
{
    new_places();
    guest_ids();
    places_of_dead();
}
