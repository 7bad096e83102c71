/* kernel_collect: each result and kind of call, handed out once. */
#include "check.h"
#include "host.h"
#include "kernel.h"
#include "layout.h"
#include "lent.h"
#include "made_block.h"

#include <string.h>

/* What collect hands out; after is the whole block afterwards. */
static void collects(const uint8_t *before, const char *what, const uint8_t *after, uint32_t result, uint32_t index, uint32_t call)
{
    struct lent block = lend(KERNEL_BLOCK_LEN, BEFORE_UNMAPPED), answer = lend(KERNEL_COLLECT_LEN, AFTER_UNMAPPED);
    memcpy(block.at, before, KERNEL_BLOCK_LEN);
    keep(&block);
    uint32_t number = kernel_collect(block.at, block.len, answer.at, answer.len);
    uint32_t given[] = {get32(answer.at, KERNEL_COLLECT_RESULT_AT), get32(answer.at, KERNEL_COLLECT_INDEX_AT), get32(answer.at, KERNEL_COLLECT_SYSCALL_AT)};
    check(number == KERNEL_DONE, "%s: answer %u", what, number);
    check(memcmp(block.at, after, KERNEL_BLOCK_LEN) == 0, "%s: the block differs", what);
    check(given[0] == result && given[1] == index && given[2] == call, "%s: %u, %u, %u, not %u, %u, %u", what, given[0], given[1], given[2], result, index, call);
    check(same_around(&block) && same_around(&answer), "%s: a byte outside what was lent changed", what);
    give_back(&block);
    give_back(&answer);
}

void test_collect(void)
{
    uint8_t block[KERNEL_BLOCK_LEN], after[KERNEL_BLOCK_LEN];
    group("kernel_collect");
    running_block(block);
    collects(block, "nothing to collect", block, KERNEL_RESULT_NONE, 0, KERNEL_WAIT_SYSCALL_NONE);
    for (uint32_t result = KERNEL_RESULT_NONE; result <= KERNEL_RESULT_TIMED_OUT; result++)
        for (uint32_t index = 0; index < (result == KERNEL_RESULT_SIGNALED ? KERNEL_WAIT_LIST : 1); index++)
            for (uint32_t call = KERNEL_WAIT_SYSCALL_NONE; call <= KERNEL_WAIT_SYSCALL_SLEEP_THREAD; call++) {
                running_block(block);
                /* another thread's stays */
                put32(block, thread_at(1) + WAIT_RESULT, KERNEL_RESULT_TIMED_OUT);
                put32(block, thread_at(1) + WAIT_SYSCALL, KERNEL_WAIT_SYSCALL_WAIT_SYNCHRONIZATION1);
                memcpy(after, block, sizeof block);
                put32(block, thread_at(0) + WAIT_RESULT, result);
                put32(block, thread_at(0) + WAIT_INDEX, index);
                put32(block, thread_at(0) + WAIT_SYSCALL, call);
                collects(block, "a result", after, result, index, call);
                collects(after, "collected again", after, KERNEL_RESULT_NONE, 0, KERNEL_WAIT_SYSCALL_NONE);
            }
}
