/* The 21 guest calls with registers that they are accepted with. */
#ifndef GUEST_CALLS_H
#define GUEST_CALLS_H

#include <stdint.h>

enum { GUEST_CALLS = 27 };

struct guest_call {
    const char *name;
    uint32_t number;
    uint32_t made_by, made_with[2]; /* the call that makes the object it is about, 0 for none, and its r1 and r2 */
    uint32_t handle_in;             /* the register that gets the handle; LIST_WORDS: every word of the window */
    int records;                    /* or it is about the open arbiter with the most records, if there is one */
    uint32_t regs[6];
};

extern const struct guest_call guest_calls[GUEST_CALLS];

/* Makes the call's object in `original` and sets its registers; 0 if there is no room. */
int ready_for(const struct guest_call *g, uint32_t *regs);

#endif
