#include "guest_calls.h"

#include "../tests/layout.h"
#include "host.h"

#include <string.h>

enum { NOWHERE = 9, LIST_WORDS = 8, MILLISECOND = 1000000 };

#define NOTHING 0, {0, 0}, NOWHERE, 0
#define MUTEX_IN(r) KERNEL_CALL_CREATE_MUTEX, {1, 0}, r, 0
#define SEMAPHORE_IN(r) KERNEL_CALL_CREATE_SEMAPHORE, {KERNEL_WAIT_LIST, KERNEL_WAIT_LIST}, r, 0
#define EVENT_IN(r) KERNEL_CALL_CREATE_EVENT, {0, 0}, r, 0
#define TIMER_IN(r) KERNEL_CALL_CREATE_TIMER, {0, 0}, r, 0
#define ARBITER_IN(r) KERNEL_CALL_CREATE_ADDRESS_ARBITER, {0, 0}, r, 0
#define RECORDS_IN(r) KERNEL_CALL_CREATE_ADDRESS_ARBITER, {0, 0}, r, 1

/* The longest list names one object in each place. */
const struct guest_call guest_calls[GUEST_CALLS] = {
    {"08 CreateThread", KERNEL_CALL_CREATE_THREAD, NOTHING, {40, 0x100000, 7, 0x1000, 0}},
    {"09 ExitThread", KERNEL_CALL_EXIT_THREAD, MUTEX_IN(NOWHERE), {0}},
    {"0A SleepThread", KERNEL_CALL_SLEEP_THREAD, NOTHING, {MILLISECOND}},
    {"0A SleepThread, yields", KERNEL_CALL_SLEEP_THREAD, NOTHING, {0}},
    {"0C SetThreadPriority", KERNEL_CALL_SET_THREAD_PRIORITY, NOTHING, {KERNEL_CURRENT_THREAD, 30}},
    {"13 CreateMutex", KERNEL_CALL_CREATE_MUTEX, NOTHING, {0, 1}},
    {"14 ReleaseMutex", KERNEL_CALL_RELEASE_MUTEX, MUTEX_IN(0), {0}},
    {"15 CreateSemaphore", KERNEL_CALL_CREATE_SEMAPHORE, NOTHING, {0, 1, 8}},
    {"16 ReleaseSemaphore", KERNEL_CALL_RELEASE_SEMAPHORE, SEMAPHORE_IN(1), {0, 0, 1}},
    {"17 CreateEvent", KERNEL_CALL_CREATE_EVENT, NOTHING, {0}},
    {"18 SignalEvent", KERNEL_CALL_SIGNAL_EVENT, EVENT_IN(0), {0}},
    {"19 ClearEvent", KERNEL_CALL_CLEAR_EVENT, EVENT_IN(0), {0}},
    {"1A CreateTimer", KERNEL_CALL_CREATE_TIMER, NOTHING, {0}},
    {"1B SetTimer", KERNEL_CALL_SET_TIMER, TIMER_IN(0), {0, MILLISECOND, MILLISECOND}},
    {"1C CancelTimer", KERNEL_CALL_CANCEL_TIMER, TIMER_IN(0), {0}},
    {"1D ClearTimer", KERNEL_CALL_CLEAR_TIMER, TIMER_IN(0), {0}},
    {"21 CreateAddressArbiter", KERNEL_CALL_CREATE_ADDRESS_ARBITER, NOTHING, {0}},
    {"22 ArbitrateAddress, waits", KERNEL_CALL_ARBITRATE_ADDRESS, ARBITER_IN(0),
     {0, BASE, KERNEL_ARBITRATION_DECREMENT_AND_WAIT_IF_LESS_THAN_WITH_TIMEOUT, 0x7FFFFFFF, MILLISECOND}},
    {"22 ArbitrateAddress, signals", KERNEL_CALL_ARBITRATE_ADDRESS, RECORDS_IN(0), {0, 0, KERNEL_ARBITRATION_SIGNAL, 0xFFFFFFFF}},
    {"23 CloseHandle", KERNEL_CALL_CLOSE_HANDLE, EVENT_IN(0), {0}},
    {"23 CloseHandle, of an arbiter", KERNEL_CALL_CLOSE_HANDLE, RECORDS_IN(0), {0}},
    {"24 WaitSynchronization1, waits", KERNEL_CALL_WAIT_SYNCHRONIZATION1, EVENT_IN(0), {0, 0, MILLISECOND}},
    {"24 WaitSynchronization1, done", KERNEL_CALL_WAIT_SYNCHRONIZATION1, SEMAPHORE_IN(0), {0}},
    {"25 WaitSynchronizationN, waits", KERNEL_CALL_WAIT_SYNCHRONIZATION_N, EVENT_IN(LIST_WORDS),
     {MILLISECOND, BASE, KERNEL_WAIT_LIST, 0}},
    {"25 WaitSynchronizationN, done", KERNEL_CALL_WAIT_SYNCHRONIZATION_N, SEMAPHORE_IN(LIST_WORDS),
     {0, BASE, KERNEL_WAIT_LIST, 1}},
    {"27 DuplicateHandle", KERNEL_CALL_DUPLICATE_HANDLE, EVENT_IN(1), {0}},
    {"27 DuplicateHandle, of itself", KERNEL_CALL_DUPLICATE_HANDLE, NOTHING, {0, KERNEL_CURRENT_THREAD}},
};

/* The handle of the open arbiter with the most records, and the address of its first one; 0 if no arbiter has one. */
static uint32_t find_records(uint32_t *address)
{
    uint32_t most = 0, handle = 0;
    for (uint32_t entry = 0; entry < get32(original, HANDLE_COUNT); entry++) {
        uint32_t at = slot_at(get32(original, handle_at(entry) + HANDLE_OBJECT)), count = 0;
        if (get32(original, at + KIND) != ARBITER)
            continue;
        for (uint32_t r = get32(original, at + A); r != 0; r = get32(original, record_at(r) + RECORD_NEXT))
            count++;
        if (count > most) {
            most = count;
            handle = get32(original, handle_at(entry) + HANDLE);
            *address = get32(original, record_at(get32(original, at + A)) + RECORD_ADDRESS);
        }
    }
    return handle;
}

int ready_for(const struct guest_call *g, uint32_t *regs)
{
    memcpy(regs, g->regs, sizeof g->regs);
    memset(window, 0, sizeof window);
    if (g->records && (regs[g->handle_in] = find_records(&regs[1])) != 0)
        return 1;
    if (g->made_by == 0)
        return 1;
    if (guest(original, g->made_by, (const uint32_t[6]){0, g->made_with[0], g->made_with[1]}, 0) != KERNEL_DONE)
        return 0;
    uint32_t handle = get32(processor, 4);
    if (g->handle_in < 6)
        regs[g->handle_in] = handle;
    for (uint32_t at = 0; at < WINDOW && g->handle_in == LIST_WORDS; at += 4)
        put32(window, at, handle);
    return 1;
}
