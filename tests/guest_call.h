/* A guest call made on memory against unmapped pages, and held to what it is to leave in every lent byte. */
#ifndef GUEST_CALL_H
#define GUEST_CALL_H

#include <stdint.h>

enum { BASE = 0x100000, WINDOW = 64, NOBODY = 99, NOWHERE = 1 };
enum { R0 = 1, R1 = 2, R2 = 4, R3 = 8, R4 = 16, R5 = 32 };

/* A call: its number, the registers that it reads and what they hold, the window's words. */
struct call {
    uint32_t number, reads, regs[6], words[WINDOW / 4];
    uint64_t tick;
};

/* What it leaves: the number, the whole block (NULL if nothing may change), the registers that it writes, the thread whose
   row of the bank it writes, and the word that it writes. */
struct left {
    uint32_t number;
    const uint8_t *after;
    uint32_t writes, r0, r1, row, word_at, word;
};

struct left refused(uint32_t number);
struct left answered(uint32_t number, const uint8_t *after, uint32_t writes, uint32_t r1);

/* Makes the call on a copy of the block and checks everything. */
void calls(const uint8_t *before, const struct call *c, const char *what, struct left expected);

#endif
