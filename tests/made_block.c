#include "made_block.h"

#include "fresh_block.h"
#include "layout.h"

uint32_t add_thread(uint8_t *block, uint32_t status)
{
    uint32_t thread = get32(block, THREAD_COUNT);
    put32(block, THREAD_COUNT, thread + 1);
    put32(block, NEXT_TLS_SLOT, thread + 1);
    put32(block, thread_at(thread) + STATUS, status);
    put32(block, thread_at(thread) + TLS, thread);
    return thread_at(thread);
}

void wake_at(uint8_t *block, uint32_t thread, uint64_t tick)
{
    put32(block, thread + HAS_WAKEUP, 1);
    put64(block, thread + WAKEUP_AT, tick);
}

uint32_t add_object(uint8_t *block, uint32_t kind)
{
    uint32_t object = get32(block, FIRST_FREE_OBJECT), at = slot_at(object);
    put32(block, FIRST_FREE_OBJECT, get32(block, at + A));
    put32(block, at + KIND, kind);
    put32(block, at + A, 0);
    return object;
}

static void hold(uint8_t *block, uint32_t object)
{
    put32(block, slot_at(object) + REFCOUNT, get32(block, slot_at(object) + REFCOUNT) + 1);
}

void add_handle(uint8_t *block, uint32_t object)
{
    uint32_t entry = get32(block, HANDLE_COUNT), handle = get32(block, NEXT_HANDLE);
    put32(block, handle_at(entry) + HANDLE, handle);
    put32(block, handle_at(entry) + HANDLE_OBJECT, object);
    put32(block, HANDLE_COUNT, entry + 1);
    put32(block, NEXT_HANDLE, handle + 1);
    hold(block, object);
}

uint32_t add_timer(uint8_t *block, uint64_t fire_at)
{
    uint32_t object = add_object(block, TIMER);
    put32(block, slot_at(object) + C, 1);
    put64(block, slot_at(object) + X, fire_at);
    add_handle(block, object);
    return object;
}

uint32_t add_mutex(uint8_t *block, uint32_t owner, uint32_t lock_count)
{
    uint32_t object = add_object(block, MUTEX), at = slot_at(object);
    put32(block, at + A, 1);
    put32(block, at + B, owner);
    put32(block, at + C, lock_count);
    add_handle(block, object);
    return object;
}

void wait_on(uint8_t *block, uint32_t thread, uint32_t object)
{
    uint32_t count = get32(block, thread + WAIT_COUNT);
    put32(block, thread + WAIT_OBJECTS + 4 * count, object);
    put32(block, thread + WAIT_COUNT, count + 1);
    hold(block, object);
}

void add_record(uint8_t *block, uint32_t arbiter, uint32_t thread, uint32_t address)
{
    uint32_t record = get32(block, FIRST_FREE_RECORD), at = record_at(record), link = slot_at(arbiter) + A;
    put32(block, FIRST_FREE_RECORD, get32(block, at + RECORD_NEXT));
    while (get32(block, link) != 0)
        link = record_at(get32(block, link)) + RECORD_NEXT;
    put32(block, link, record);
    put32(block, at + RECORD_THREAD, thread);
    put32(block, at + RECORD_ADDRESS, address);
    put32(block, at + RECORD_NEXT, 0);
}

void make_current(uint8_t *block, uint32_t thread)
{
    put32(block, HAS_CURRENT, 1);
    put32(block, CURRENT_THREAD, thread);
    put32(block, ALL_BLOCKED, 0);
}

void make_none_current(uint8_t *block)
{
    put32(block, HAS_CURRENT, 0);
    put32(block, CURRENT_THREAD, 0);
    put32(block, ALL_BLOCKED, 1);
}

void running_block(uint8_t *block)
{
    fresh_block(block, 0x10);
    put32(block, add_thread(block, RUNNING) + PRIORITY, 20);
    put32(block, add_thread(block, READY) + PRIORITY, 30);
    make_current(block, 0);
}

/* An object that the block itself keeps: one holder that is no handle. */
static uint32_t add_kept(uint8_t *block, uint32_t kind, uint32_t kept)
{
    uint32_t object = add_object(block, kind);
    hold(block, object);
    put32(block, kept, object);
    return object;
}

void mixed_block(uint8_t *block)
{
    running_block(block);
    uint32_t sleeper = add_thread(block, SLEEPING), waiter = add_thread(block, WAIT_SYNC), parked = add_thread(block, WAIT_ARBITER);
    add_thread(block, DORMANT);
    add_thread(block, DEAD);

    uint32_t arbiter = add_object(block, ARBITER), event = add_object(block, EVENT), signalled = add_object(block, EVENT);
    add_handle(block, arbiter);
    add_handle(block, event);
    add_handle(block, signalled);
    put32(block, slot_at(signalled) + A, 1);
    put32(block, slot_at(signalled) + B, 1);
    add_mutex(block, 0, 1);
    uint32_t semaphore = add_object(block, SEMAPHORE);
    put32(block, slot_at(semaphore) + A, 1);
    put32(block, slot_at(semaphore) + B, 5);
    add_handle(block, semaphore);
    uint32_t timer = add_timer(block, 5000);
    put64(block, slot_at(timer) + Y, 300);
    uint32_t thread = add_kept(block, THREAD, kept_at(1));
    put32(block, slot_at(thread) + A, 1);
    add_handle(block, thread);
    add_handle(block, add_kept(block, PROCESS, PROCESS_OBJECT));
    add_handle(block, add_object(block, RESOURCE_LIMIT));

    wake_at(block, sleeper, 4000);
    wait_on(block, waiter, event);
    wait_on(block, waiter, timer);
    put32(block, parked + HAS_WAIT_ADDRESS, 1);
    put32(block, parked + WAIT_ADDRESS, 8);
    add_record(block, arbiter, 4, 8);
    add_record(block, arbiter, 6, 8);
    put32(block, slot_at(OBJECTS) + PULSED, 1);
}

uint32_t mixed_object(uint32_t handle)
{
    return handle - KERNEL_FIRST_HANDLE + 1;
}

uint32_t mixed_slot(uint32_t handle)
{
    return slot_at(mixed_object(handle));
}

void full_block(uint8_t *block)
{
    running_block(block);
    while (get32(block, THREAD_COUNT) < THREADS)
        add_thread(block, READY);
    uint32_t arbiter = add_object(block, ARBITER);
    add_handle(block, arbiter);
    for (uint32_t i = 0; i < RECORDS; i++)
        add_record(block, arbiter, i % THREADS, 4 * i);
    uint32_t event = 0;
    while (get32(block, FIRST_FREE_OBJECT) != 0)
        add_handle(block, event = add_object(block, EVENT));
    while (get32(block, HANDLE_COUNT) < HANDLES)
        add_handle(block, event);
}
