#include "host.h"

#include "../tests/layout.h"
#include "../tests/made_block.h"

#include <string.h>

uint8_t original[KERNEL_BLOCK_LEN], block[KERNEL_BLOCK_LEN], bank[KERNEL_BANK_LEN], processor[KERNEL_PROCESSOR_LEN];
uint8_t window[WINDOW], answer[KERNEL_SATISFIED_NOW_LEN];

uint32_t guest(uint8_t *on, uint32_t number, const uint32_t *regs, uint64_t tick)
{
    for (uint32_t i = 0; i < 6; i++)
        put32(processor, 4 * i, regs[i]);
    return kernel_dispatch(on, KERNEL_BLOCK_LEN, bank, sizeof bank, processor, sizeof processor, window, sizeof window, BASE, number, tick);
}

static uint32_t create(uint8_t *on)
{
    return kernel_create_thread(on, KERNEL_BLOCK_LEN, bank, sizeof bank, answer, KERNEL_CREATE_THREAD_LEN, 0x100001, 0x1000, 7, 0, 0);
}

/* Do so many more threads fit? */
static int threads_fit(uint32_t count)
{
    memcpy(block, original, sizeof block);
    while (count-- > 0)
        if (create(block) != KERNEL_DONE)
            return 0;
    return 1;
}

static int runs(void)
{
    return get32(original, HAS_CURRENT) && get32(original, thread_at(get32(original, CURRENT_THREAD)) + STATUS) == RUNNING;
}

/* Four objects and handles, and a record. */
static int objects_fit(void)
{
    uint32_t objects = 0;
    for (uint32_t o = get32(original, FIRST_FREE_OBJECT); o != 0; o = get32(original, slot_at(o) + A))
        objects++;
    return objects >= 4 && get32(original, HANDLE_COUNT) + 4 <= HANDLES && get32(original, FIRST_FREE_RECORD) != 0;
}

/* A thread made by a guest call, which has an object then, ends with no handle open. */
static int leave_a_dead_thread(void)
{
    if (guest(original, KERNEL_CALL_CREATE_THREAD, (const uint32_t[6]){63, 0x1000, 0, 0x2000, 0}, 0) != KERNEL_DONE)
        return 0;
    uint32_t handle = get32(processor, 4), object = get32(original, handle_at(get32(original, HANDLE_COUNT) - 1) + HANDLE_OBJECT);
    return guest(original, KERNEL_CALL_CLOSE_HANDLE, (const uint32_t[6]){handle}, 0) == KERNEL_DONE
        && kernel_end_thread(original, sizeof original, get32(original, slot_at(object) + A)) == KERNEL_DONE;
}

int prepare(void)
{
    for (uint32_t thread = THREADS; thread-- > 0 && !threads_fit(2);)
        if (!runs() || get32(original, CURRENT_THREAD) != thread)
            kernel_end_thread(original, sizeof original, thread);
    if (!runs()) {
        if (create(original) != KERNEL_DONE)
            return 0;
        kernel_schedule(original, sizeof original, bank, sizeof bank, processor, sizeof processor, answer, KERNEL_SCHEDULE_LEN, 0);
    }
    while (runs() && !objects_fit() && get32(original, HANDLE_COUNT) > 0)
        guest(original, KERNEL_CALL_CLOSE_HANDLE, (const uint32_t[6]){get32(original, handle_at(get32(original, HANDLE_COUNT) - 1) + HANDLE)}, 0);
    return runs() && objects_fit() && leave_a_dead_thread();
}

/* The arbiter, with records of the two threads and of a third. */
static uint32_t long_chain(void)
{
    running_block(original);
    add_thread(original, WAIT_SYNC);
    uint32_t arbiter = add_object(original, ARBITER);
    for (uint32_t i = 0; i + 1 < RECORDS; i++)
        add_record(original, arbiter, i % 3, 4 * i);
    return arbiter;
}

void open_chain(void)
{
    add_handle(original, long_chain());
}

void listed_chain(void)
{
    wait_on(original, thread_at(2), long_chain());
}

void shared_chain(void)
{
    running_block(original);
    for (uint32_t i = 0; i < OBJECTS; i++)
        add_handle(original, add_object(original, ARBITER));
    for (uint32_t i = 0; i < RECORDS; i++)
        add_record(original, 1, 0, 4 * i);
    for (uint32_t arbiter = 2; arbiter <= OBJECTS; arbiter++)
        put32(original, slot_at(arbiter) + A, get32(original, slot_at(1) + A));
}
