#include "guest_call.h"

#include "check.h"
#include "kernel.h"
#include "layout.h"
#include "lent.h"

#include <string.h>

struct left refused(uint32_t number)
{
    struct left l = {number, NULL, 0, 0, 0, NOBODY, NOWHERE, 0};
    return l;
}

struct left answered(uint32_t number, const uint8_t *after, uint32_t writes, uint32_t r1)
{
    struct left l = {number, after, writes, number, r1, NOBODY, NOWHERE, 0};
    return l;
}

/* The row of a new thread, as an export that is tested by itself writes it. */
static void new_row(const uint8_t *before, const struct call *c, uint8_t *bank)
{
    uint8_t block[KERNEL_BLOCK_LEN], answer[KERNEL_CREATE_THREAD_LEN];
    memcpy(block, before, sizeof block);
    uint32_t number = kernel_create_thread(block, sizeof block, bank, KERNEL_BANK_LEN, answer, sizeof answer, c->regs[1], c->regs[3], c->regs[2], c->regs[0], c->regs[4]);
    check(number == KERNEL_DONE, "a thread to compare with: answer %u", number);
}

void calls(const uint8_t *before, const struct call *c, const char *what, struct left expected)
{
    struct lent block = lend(KERNEL_BLOCK_LEN, BEFORE_UNMAPPED), bank = lend(KERNEL_BANK_LEN, AFTER_UNMAPPED);
    struct lent processor = lend(KERNEL_PROCESSOR_LEN, BEFORE_UNMAPPED), window = lend(WINDOW, AFTER_UNMAPPED);
    uint8_t rows[KERNEL_BANK_LEN], context[KERNEL_PROCESSOR_LEN], memory[WINDOW];
    memcpy(block.at, before, KERNEL_BLOCK_LEN);
    /* registers that the call does not read stay random */
    for (uint32_t i = 0; i < 6; i++)
        if (c->reads >> i & 1)
            put32(processor.at, 4 * i, c->regs[i]);
    for (uint32_t i = 0; i < WINDOW / 4; i++)
        put32(window.at, 4 * i, c->words[i]);
    memcpy(rows, bank.at, sizeof rows);
    memcpy(context, processor.at, sizeof context);
    memcpy(memory, window.at, sizeof memory);
    keep(&block);
    keep(&bank);
    keep(&processor);
    keep(&window);
    uint32_t number = kernel_dispatch(block.at, block.len, bank.at, bank.len, processor.at, processor.len, window.at, window.len, BASE, c->number, c->tick);
    check(number == expected.number, "%s: answer %u, not %u", what, number, expected.number);
    if (expected.after == NULL) {
        check(same(&block) && same(&bank) && same(&processor) && same(&window), "%s: refused, and a byte changed", what);
    } else {
        size_t at = first_difference(&block, expected.after);
        check(at == KERNEL_BLOCK_LEN, "%s: byte %zu differs: %u, not %u", what, at, block.at[at % KERNEL_BLOCK_LEN], expected.after[at % KERNEL_BLOCK_LEN]);
        if (expected.writes & R0)
            put32(context, 0, expected.r0);
        if (expected.writes & R1)
            put32(context, 4, expected.r1);
        if (expected.row != NOBODY)
            new_row(before, c, rows);
        if (expected.word_at != NOWHERE)
            put32(memory, expected.word_at, expected.word);
        check(memcmp(context, processor.at, sizeof context) == 0, "%s: the processor differs: r0 %x, r1 %x", what, get32(processor.at, 0), get32(processor.at, 4));
        check(memcmp(rows, bank.at, sizeof rows) == 0, "%s: the bank differs", what);
        check(memcmp(memory, window.at, sizeof memory) == 0, "%s: the window differs", what);
        check(same_around(&block) && same_around(&bank) && same_around(&processor) && same_around(&window), "%s: a byte outside what was lent changed", what);
    }
    give_back(&block);
    give_back(&bank);
    give_back(&processor);
    give_back(&window);
}
