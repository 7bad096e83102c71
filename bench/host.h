/* Everything that the benchmarks lend, and a block brought to where every call is accepted. */
#ifndef BENCH_HOST_H
#define BENCH_HOST_H

#include "kernel.h"

enum { BASE = 0x100000, WINDOW = 4 * KERNEL_WAIT_LIST };

/* `original` is what a call is made on, `block` the copy that it changes. */
extern uint8_t original[KERNEL_BLOCK_LEN], block[KERNEL_BLOCK_LEN], bank[KERNEL_BANK_LEN], processor[KERNEL_PROCESSOR_LEN];
extern uint8_t window[WINDOW], answer[KERNEL_SATISFIED_NOW_LEN];

/* A guest call on a block, with r0 to r5; its number. */
uint32_t guest(uint8_t *on, uint32_t number, const uint32_t *regs, uint64_t tick);

/* Ends threads and closes handles of `original` until a thread runs, there is room for a thread, a few objects and handles and a
   record, and the next thread gets the place of a Dead one whose object goes with it. */
int prepare(void);

/* Makes `original` a block with 63 records in one arbiter: one that a handle names, or only the list of a waiting thread. */
void open_chain(void);
void listed_chain(void);

/* Makes `original` a block whose 128 arbiters all have the same chain of 64 records, which is not sound. */
void shared_chain(void);

#endif
