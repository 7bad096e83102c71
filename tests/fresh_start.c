/* kernel_fresh_start: the block and bank it leaves, whatever they held. */
#include "check.h"
#include "fresh_block.h"
#include "host.h"
#include "kernel.h"
#include "lent.h"

#include <string.h>

static void starts(uint32_t status_word, enum edge block_edge, enum edge bank_edge)
{
    static uint8_t expected[KERNEL_BLOCK_LEN], zero[KERNEL_BANK_LEN];
    struct lent block = lend(KERNEL_BLOCK_LEN, block_edge), bank = lend(KERNEL_BANK_LEN, bank_edge);
    uint32_t number = kernel_fresh_start(block.at, block.len, bank.at, bank.len, status_word);
    fresh_block(expected, status_word);
    check(number == KERNEL_DONE, "answer %u", number);
    check(memcmp(block.at, expected, sizeof expected) == 0, "not the fresh block");
    check(memcmp(bank.at, zero, sizeof zero) == 0, "bank not zero");
    check(same_around(&block) && same_around(&bank), "a byte outside the slices changed");
    give_back(&block);
    give_back(&bank);
}

void test_fresh_start(void)
{
    static const uint32_t words[] = {0, 0x10, 0x20, 0x12345678, 0xFFFFFFFF};
    group("kernel_fresh_start");
    for (size_t i = 0; i < sizeof words / sizeof *words; i++)
        for (int edges = 0; edges < 4; edges++)
            starts(words[i], (enum edge)(edges & 1), (enum edge)(edges >> 1));
}
