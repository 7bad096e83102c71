/*
 * One pass on a block, for a profile by instruction counts. Usage: pass BLOCK-FILE
 */
#include "kernel.h"

#include <stdio.h>

static uint8_t block[KERNEL_BLOCK_LEN], bank[KERNEL_BANK_LEN], processor[KERNEL_PROCESSOR_LEN], answer[KERNEL_SCHEDULE_LEN];

int main(int argc, char **argv)
{
    FILE *in = argc == 2 ? fopen(argv[1], "rb") : NULL;
    if (!in || fread(block, 1, sizeof block, in) != sizeof block) {
        fprintf(stderr, "usage: pass BLOCK-FILE\n");
        return 2;
    }
    fclose(in);
    /* the tick of bench.c, by which the timers of busy.block have come due */
    uint32_t number = kernel_schedule(block, sizeof block, bank, sizeof bank, processor, sizeof processor, answer, sizeof answer, 1u << 30);
    if (number != KERNEL_DONE) {
        fprintf(stderr, "%s: answer %u\n", argv[1], number);
        return 1;
    }
    return 0;
}
