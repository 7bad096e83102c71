/* Blocks made here, a thread or an object at a time, from a fresh one. */
#ifndef MADE_BLOCK_H
#define MADE_BLOCK_H

#include "kernel.h"

#include <stdint.h>

/* One more thread, with the next TLS slot; where its record is. */
uint32_t add_thread(uint8_t *block, uint32_t status);

void wake_at(uint8_t *block, uint32_t thread, uint64_t tick);

/* One more object of a kind, with its fields all zero and no holder; its number. */
uint32_t add_object(uint8_t *block, uint32_t kind);

/* The next handle, for the object. */
void add_handle(uint8_t *block, uint32_t object);

/* One more timer, armed, with the next handle; its number. */
uint32_t add_timer(uint8_t *block, uint64_t fire_at);

/* One more mutex that the thread owns, with the next handle; its number. */
uint32_t add_mutex(uint8_t *block, uint32_t owner, uint32_t lock_count);

/* The object comes at the end of the thread's list. */
void wait_on(uint8_t *block, uint32_t thread, uint32_t object);

/* The next free record, at the end of the arbiter's chain. */
void add_record(uint8_t *block, uint32_t arbiter, uint32_t thread, uint32_t address);

/* The thread is the current one; nobody is. */
void make_current(uint8_t *block, uint32_t thread);
void make_none_current(uint8_t *block);

/* A fresh block with two threads, of which the first runs. */
void running_block(uint8_t *block);

/* A block with threads of every status and objects of every kind, of which thread 0 runs. Its first handles: */
enum {
    ARBITER_HANDLE = KERNEL_FIRST_HANDLE, EVENT_HANDLE, SIGNALED_HANDLE, MUTEX_HANDLE, SEMAPHORE_HANDLE,
    TIMER_HANDLE, THREAD_HANDLE, PROCESS_HANDLE, RESOURCE_LIMIT_HANDLE, NO_HANDLE
};
void mixed_block(uint8_t *block);

/* Its objects have the numbers 1, 2, .. in the order of those handles; where the slot of one is. */
uint32_t mixed_object(uint32_t handle);
uint32_t mixed_slot(uint32_t handle);

/* Every thread, object, handle and record is in use; thread 0 runs. Its first handle is an arbiter's, the others are events'. */
void full_block(uint8_t *block);

#endif
