/* How deep a call goes. */
#ifndef STACK_H
#define STACK_H

#include <stddef.h>

/* Bytes of stack that `run` uses, found on a painted stack of its own. */
size_t stack_used(void (*run)(void));

#endif
