#define _GNU_SOURCE
#include "stack.h"

#include <stdint.h>
#include <stdio.h>
#include <stdlib.h>
#include <string.h>
#include <sys/mman.h>
#include <ucontext.h>

enum { STACK = 16 << 20, GUARD = 1 << 16, PAINT = 0xA5 };

static ucontext_t here, there;

static void nothing(void) {}

static size_t deepest(void (*run)(void))
{
    uint8_t *stack = mmap(NULL, STACK, PROT_READ | PROT_WRITE, MAP_PRIVATE | MAP_ANONYMOUS, -1, 0);
    if (stack == MAP_FAILED || mprotect(stack, GUARD, PROT_NONE) != 0 || getcontext(&there) != 0) {
        perror("stack");
        exit(2);
    }
    memset(stack + GUARD, PAINT, STACK - GUARD);
    there.uc_stack.ss_sp = stack;
    there.uc_stack.ss_size = STACK;
    there.uc_link = &here;
    makecontext(&there, run, 0);
    swapcontext(&here, &there);
    size_t low = GUARD;
    while (low < STACK && stack[low] == PAINT)
        low++;
    munmap(stack, STACK);
    return STACK - low;
}

/* What the change of stacks itself takes is left out. */
size_t stack_used(void (*run)(void))
{
    size_t used = deepest(run), empty = deepest(nothing);
    return used > empty ? used - empty : 0;
}
