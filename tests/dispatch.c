/* kernel_dispatch: the answers, and what each kind of call writes. */
#include "check.h"
#include "guest_call.h"
#include "host.h"
#include "kernel.h"
#include "layout.h"
#include "made_block.h"

#include <string.h>

static void objects(void)
{
    uint8_t block[KERNEL_BLOCK_LEN], after[KERNEL_BLOCK_LEN];
    group("kernel_dispatch, objects");
    for (uint32_t type = 0; type < 3; type++) {
        running_block(block);
        memcpy(after, block, sizeof block);
        uint32_t event = add_object(after, EVENT);
        put32(after, slot_at(event) + A, type);
        add_handle(after, event);
        struct call make = {KERNEL_CALL_CREATE_EVENT, R1, {0, type}, {0}, 3};
        calls(block, &make, "an event", answered(0, after, R0 | R1, 0x10000));
        /* the same call again: another handle */
        memcpy(block, after, sizeof block);
        event = add_object(after, EVENT);
        put32(after, slot_at(event) + A, type);
        add_handle(after, event);
        calls(block, &make, "another event", answered(0, after, R0 | R1, 0x10001));
    }
    running_block(block);
    memcpy(after, block, sizeof block);
    uint32_t mutex = add_object(after, MUTEX);
    put32(after, slot_at(mutex) + A, 1);
    put32(after, slot_at(mutex) + C, 1);
    add_handle(after, mutex);
    struct call lock = {KERNEL_CALL_CREATE_MUTEX, R1, {0, 1}, {0}, 3};
    calls(block, &lock, "a mutex that is locked", answered(0, after, R0 | R1, 0x10000));
    memcpy(block, after, sizeof block);
    put32(after, slot_at(mutex) + A, 0);
    put32(after, slot_at(mutex) + C, 0);
    struct call unlock = {KERNEL_CALL_RELEASE_MUTEX, R0, {0x10000}, {0}, 3};
    calls(block, &unlock, "it is let go of", answered(0, after, R0, 0));
    unlock.regs[0] = 0x10001;
    calls(block, &unlock, "an unknown handle", answered(KERNEL_INVALID_HANDLE, block, R0, 0));
    struct call bad = {KERNEL_CALL_SET_THREAD_PRIORITY, R0 | R1, {0x10000, 5}, {0}, 3};
    calls(block, &bad, "a mutex is no thread", answered(KERNEL_INVALID_HANDLE, block, R0, 0));
    running_block(block);
    memcpy(after, block, sizeof block);
    put32(after, thread_at(0) + PRIORITY, 5);
    bad.regs[0] = 0xFFFF8000;
    calls(block, &bad, "its own priority", answered(0, after, R0, 0));
    /* a semaphore's count before, in r1 */
    running_block(block);
    uint32_t semaphore = add_object(block, SEMAPHORE);
    put32(block, slot_at(semaphore) + A, 3);
    put32(block, slot_at(semaphore) + B, 10);
    add_handle(block, semaphore);
    memcpy(after, block, sizeof block);
    put32(after, slot_at(semaphore) + A, 7);
    struct call release = {KERNEL_CALL_RELEASE_SEMAPHORE, R1 | R2, {0, 0x10000, 4}, {0}, 3};
    calls(block, &release, "a semaphore", answered(0, after, R0 | R1, 3));
    release.regs[2] = 0x7FFFFFFF;
    calls(block, &release, "a count that does not fit", refused(KERNEL_OVERFLOW));
    /* a handle is closed, an unknown one too */
    running_block(block);
    memcpy(after, block, sizeof block);
    put32(after, NEXT_HANDLE, 0x10001);
    uint32_t event = add_object(block, EVENT);
    add_handle(block, event);
    struct call shut = {KERNEL_CALL_CLOSE_HANDLE, R0, {0x10000}, {0}, 3};
    calls(block, &shut, "a handle is closed", answered(0, after, R0, 0));
    calls(after, &shut, "it is closed again", answered(0, after, R0, 0));
}

static void threads(void)
{
    uint8_t block[KERNEL_BLOCK_LEN], after[KERNEL_BLOCK_LEN], bank[KERNEL_BANK_LEN], answer[KERNEL_CREATE_THREAD_LEN];
    group("kernel_dispatch, threads");
    running_block(block);
    memcpy(after, block, sizeof block);
    struct call make = {KERNEL_CALL_CREATE_THREAD, R0 | R1 | R2 | R3 | R4, {40, 0x200001, 77, 0x300000, 1}, {0}, 3};
    uint32_t number = kernel_create_thread(after, sizeof after, bank, sizeof bank, answer, sizeof answer, 0x200001, 0x300000, 77, 40, 1);
    check(number == KERNEL_DONE, "a thread: answer %u", number);
    uint32_t object = add_object(after, THREAD);
    put32(after, slot_at(object) + A, 2);
    add_handle(after, object);
    put32(after, slot_at(object) + REFCOUNT, 2);
    put32(after, kept_at(2), object);
    struct left made = answered(0, after, R0 | R1, 0x10000);
    made.row = 2;
    calls(block, &make, "a thread", made);
    struct call leave = {KERNEL_CALL_EXIT_THREAD, 0, {0}, {0}, 3};
    memcpy(after, block, sizeof block);
    number = kernel_end_thread(after, sizeof after, 0);
    check(number == KERNEL_DONE, "an ended thread: answer %u", number);
    calls(block, &leave, "the current thread ends", answered(0, after, 0, 0));
    struct call sleep = {KERNEL_CALL_SLEEP_THREAD, R0 | R1, {1000000000, 0}, {0}, 1000};
    memcpy(after, block, sizeof block);
    put32(after, thread_at(0) + STATUS, SLEEPING);
    wake_at(after, thread_at(0), 1000 + 268111856);
    calls(block, &sleep, "a sleep of a second", answered(0, after, R0, 0));
}

static void waits(void)
{
    uint8_t block[KERNEL_BLOCK_LEN], after[KERNEL_BLOCK_LEN];
    group("kernel_dispatch, waits");
    running_block(block);
    uint32_t first = add_object(block, EVENT), second = add_object(block, EVENT);
    add_handle(block, first);
    add_handle(block, second);
    struct call one = {KERNEL_CALL_WAIT_SYNCHRONIZATION1, R0 | R2 | R3, {0x10000, 0, 0, 0}, {0}, 1000};
    calls(block, &one, "a wait of 0", answered(KERNEL_TIMEOUT, block, R0, 0));
    one.regs[0] = 0x10005;
    calls(block, &one, "a wait on an unknown handle", answered(KERNEL_INVALID_HANDLE, block, R0, 0));
    memcpy(after, block, sizeof block);
    put32(after, thread_at(0) + STATUS, WAIT_SYNC);
    put32(after, thread_at(0) + WAIT_SYSCALL, 1);
    wait_on(after, thread_at(0), first);
    one.regs[0] = 0x10000;
    one.regs[2] = 0xFFFFFFFF;
    one.regs[3] = 0xFFFFFFFF;
    calls(block, &one, "a wait for good writes no register", answered(0, after, 0, 0));
    /* of two, the second is signalled and taken */
    put32(block, slot_at(second) + B, 1);
    memcpy(after, block, sizeof block);
    put32(after, slot_at(second) + B, 0);
    struct call any = {KERNEL_CALL_WAIT_SYNCHRONIZATION_N, R0 | R1 | R2 | R3 | R4, {0, BASE + 12, 2, 0, 0}, {0, 0, 0, 0x10000, 0x10001}, 1000};
    calls(block, &any, "the second of two", answered(0, after, R0 | R1, 1));
    any.regs[3] = 1;
    calls(block, &any, "not both", answered(KERNEL_TIMEOUT, block, R0, 0));
    any.regs[2] = 0;
    any.regs[1] = 3;
    any.regs[3] = 0;
    calls(block, &any, "none, wherever it is", answered(KERNEL_TIMEOUT, block, R0, 0));
    memset(any.words, 0, sizeof any.words);
    any.regs[2] = KERNEL_WAIT_LIST;
    any.regs[1] = BASE + WINDOW - 4 * KERNEL_WAIT_LIST;
    calls(block, &any, "unknown handles up to the window's end", answered(KERNEL_INVALID_HANDLE, block, R0, 0));
}

static void arbitration(void)
{
    uint8_t block[KERNEL_BLOCK_LEN], after[KERNEL_BLOCK_LEN];
    group("kernel_dispatch, arbitration");
    running_block(block);
    uint32_t arbiter = add_object(block, ARBITER);
    add_handle(block, arbiter);
    struct call park = {KERNEL_CALL_ARBITRATE_ADDRESS, R0 | R1 | R2 | R3 | R4 | R5, {0x10000, BASE + 8, 9, 6, 0, 0}, {1, 2, 5, 4}, 1000};
    calls(block, &park, "an unknown kind", answered(KERNEL_INVALID_ENUM_VALUE, block, R0, 0));
    park.regs[0] = 0;
    calls(block, &park, "an unknown kind and handle", answered(KERNEL_INVALID_ENUM_VALUE, block, R0, 0));
    /* what reads no word may name any address */
    park.regs[1] = BASE + WINDOW + 1;
    calls(block, &park, "an unknown kind, outside the window", answered(KERNEL_INVALID_ENUM_VALUE, block, R0, 0));
    park.regs[2] = KERNEL_ARBITRATION_SIGNAL;
    calls(block, &park, "a signal through an unknown handle, outside the window", answered(KERNEL_INVALID_HANDLE, block, R0, 0));
    park.regs[0] = 0x10000;
    calls(block, &park, "a signal outside the window", answered(KERNEL_DONE, block, R0, 0));
    park.regs[1] = BASE + 8;
    memcpy(after, block, sizeof block);
    put32(after, thread_at(0) + STATUS, WAIT_ARBITER);
    put32(after, thread_at(0) + WAIT_SYSCALL, 3);
    put32(after, thread_at(0) + HAS_WAIT_ADDRESS, 1);
    put32(after, thread_at(0) + WAIT_ADDRESS, BASE + 8);
    add_record(after, arbiter, 0, BASE + 8);
    park.regs[2] = 1;
    calls(block, &park, "5 is less than 6", answered(0, after, R0, 0));
    park.regs[2] = 2;
    struct left down = answered(0, after, R0, 0);
    down.word_at = 8;
    down.word = 4;
    calls(block, &park, "5 is counted down", down);
    park.regs[3] = 5;
    calls(block, &park, "5 is not less than 5", answered(0, block, R0, 0));
    park.words[2] = 0xFFFFFFFF;
    park.regs[3] = 0;
    down.word = 0xFFFFFFFE;
    calls(block, &park, "-1 is less than 0", down);
    park.words[2] = 0x80000000;
    calls(block, &park, "the least word has none less", refused(KERNEL_OVERFLOW));
}

void test_dispatch(void)
{
    objects();
    threads();
    waits();
    arbitration();
}
