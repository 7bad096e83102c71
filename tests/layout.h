/* Where docs/STATE.md puts things in a state block. */
#ifndef LAYOUT_H
#define LAYOUT_H

#include <stdint.h>

enum {
    THREADS = 32, OBJECTS = 128, HANDLES = 256, RECORDS = 64, LIST = 12,

    STATUS_WORD = 0, THREAD_COUNT = 4, HAS_CURRENT = 8, CURRENT_THREAD = 12, NEXT_TLS_SLOT = 16, NEXT_GUEST_ID = 20,
    ALL_BLOCKED = 24, RELIEF = 28, FIRST_FREE_OBJECT = 32, FIRST_FREE_RECORD = 36, HANDLE_COUNT = 40, NEXT_HANDLE = 44,
    PROCESS_OBJECT = 48, HEAD_SPARE = 52, HEAD_END = 128,

    /* in a thread record */
    STATUS = 0, PRIORITY = 4, ENTRY = 8, STACK_TOP = 12, TLS = 16, PROCESSOR_ID = 20, WAIT_COUNT = 24, WAIT_ALL = 28,
    WAITED = 32, HAS_WAKEUP = 36, HAS_WAIT_ADDRESS = 40, WAIT_ADDRESS = 44, WAIT_RESULT = 48, WAIT_INDEX = 52,
    WAIT_SYSCALL = 56, GUEST_ID = 60, WAKEUP_AT = 64, RUNNING_SINCE = 72, WAIT_OBJECTS = 80,
    THREAD_SPARE = WAIT_OBJECTS + 4 * LIST, THREAD_LEN = 160,

    /* in an object slot */
    KIND = 0, REFCOUNT = 4, PULSED = 8, A = 12, B = 16, C = 20, X = 24, Y = 32, SLOT_LEN = 40,

    /* in a handle entry and in an arbiter record */
    HANDLE = 0, HANDLE_OBJECT = 4, HANDLE_LEN = 8,
    RECORD_THREAD = 0, RECORD_ADDRESS = 4, RECORD_NEXT = 8, RECORD_LEN = 12,

    THREADS_AT = 128, SLOTS_AT = 5248, HANDLES_AT = 10368, RECORDS_AT = 12416, KEPT_AT = 13184, SPARE_AT = 13312
};

enum { DEAD, RUNNING, READY, SLEEPING, WAIT_SYNC, WAIT_ARBITER, DORMANT };
enum { FREE, THREAD, EVENT, MUTEX, SEMAPHORE, TIMER, ARBITER, PROCESS, RESOURCE_LIMIT };

/* Threads and handle entries count from 0, objects and records from 1. */
static inline uint32_t thread_at(uint32_t thread) { return THREADS_AT + THREAD_LEN * thread; }
static inline uint32_t slot_at(uint32_t object) { return SLOTS_AT + SLOT_LEN * (object - 1); }
static inline uint32_t handle_at(uint32_t entry) { return HANDLES_AT + HANDLE_LEN * entry; }
static inline uint32_t record_at(uint32_t record) { return RECORDS_AT + RECORD_LEN * (record - 1); }
static inline uint32_t kept_at(uint32_t thread) { return KEPT_AT + 4 * thread; }

static inline uint32_t get32(const uint8_t *b, uint32_t at)
{
    return (uint32_t)b[at] | (uint32_t)b[at + 1] << 8 | (uint32_t)b[at + 2] << 16 | (uint32_t)b[at + 3] << 24;
}

static inline uint64_t get64(const uint8_t *b, uint32_t at)
{
    return get32(b, at) | (uint64_t)get32(b, at + 4) << 32;
}

static inline void put32(uint8_t *b, uint32_t at, uint32_t word)
{
    for (uint32_t i = 0; i < 4; i++)
        b[at + i] = (uint8_t)(word >> 8 * i);
}

static inline void put64(uint8_t *b, uint32_t at, uint64_t tick)
{
    put32(b, at, (uint32_t)tick);
    put32(b, at + 4, (uint32_t)(tick >> 32));
}

#endif
