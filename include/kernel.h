/*
 * The thread kernel for hosts in C and C++. docs/FIRMWARE.md is the guide, docs/STATE.md has the layout of every slice.
 *
 * Each function returns one number: KERNEL_DONE, a kernel answer, or a refusal. After a refusal every lent byte is as it was.
 *
 * What is lent is a slice: a pointer and a length in bytes. The host owns it; the library reads and writes it only while the
 * call runs and only inside that length, and keeps no pointer. Any length and content may be lent: a wrong length and a
 * block that is not sound are refused. No alignment is needed. With length 0 the pointer may be NULL. Slices lent to one call
 * must not overlap, and nobody else may use them while it runs. A slice passed as const is not written.
 *
 * The library has no data of its own, takes no memory and calls nothing but memcpy, memmove and memset, so calls for kernels that
 * share no slice do not meet. For one kernel one call runs at a time: do not call from an interrupt that breaks into a call.
 *
 * A call takes up to 31 KB of stack, and bytes below the stack pointer as the x86-64 System V ABI allows; docs/FIRMWARE.md has
 * the figures of each function. A word is 32 bits, a tick 64; both are little-endian in slices.
 */
#ifndef KERNEL_H
#define KERNEL_H

#include <stddef.h>
#include <stdint.h>

#ifdef __cplusplus
extern "C" {
#endif

/* ---- Lengths, in bytes. Any other length is refused with KERNEL_LENGTH. */

#define KERNEL_BLOCK_LEN 16384u /* the state block */
#define KERNEL_CONTEXT_WORDS 52u
#define KERNEL_CONTEXT_LEN (4u * KERNEL_CONTEXT_WORDS) /* the processor, or a thread's row of the bank */
#define KERNEL_PROCESSOR_LEN KERNEL_CONTEXT_LEN
#define KERNEL_BANK_LEN (KERNEL_THREADS * KERNEL_CONTEXT_LEN) /* 6,656: the row of thread 0 first */
#define KERNEL_WINDOW_MAX 65536u /* the guest window: at most this, a multiple of 4, base + length at most 2^32 */
#define KERNEL_HANDLE_LEN 4u     /* a handle list: a multiple of this */

/* ---- Answer slices: the length, and where each field begins. A flag is a word, 1 for yes and 0 for no. */

#define KERNEL_NEXT_EVENT_LEN 16u
#define KERNEL_NEXT_EVENT_FOUND_AT 0u /* flag: there is a tick; the word after it is 0 */
#define KERNEL_NEXT_EVENT_TICK_AT 8u  /* the tick, in 8 bytes; 0 if there is none */

#define KERNEL_CREATE_THREAD_LEN 4u
#define KERNEL_CREATE_THREAD_NUMBER_AT 0u /* the thread's number, from 0 */

#define KERNEL_SCHEDULE_LEN 4u
#define KERNEL_SCHEDULE_SWITCHED_AT 0u /* flag: another thread has the core, or nobody any more */

#define KERNEL_SATISFIED_NOW_LEN 40u
#define KERNEL_SATISFIED_NOW_FOUND_AT 0u   /* flag: the wait would be satisfied; all else is 0 if not */
#define KERNEL_SATISFIED_NOW_INDEX_AT 4u   /* the index that the wait would give */
#define KERNEL_SATISFIED_NOW_OBJECTS_AT 8u /* KERNEL_SATISFIED_NOW_LIST object numbers, unused places 0 */

#define KERNEL_QUIET_RELEASE_LEN 12u
#define KERNEL_QUIET_RELEASE_FOUND_AT 0u  /* flag: no pass would be needed; all else is 0 if not */
#define KERNEL_QUIET_RELEASE_OBJECT_AT 4u /* the mutex's object number */
#define KERNEL_QUIET_RELEASE_FREES_AT 8u  /* flag: the mutex would become free; 0 if it only counts down */

#define KERNEL_COLLECT_LEN 12u
#define KERNEL_COLLECT_RESULT_AT 0u  /* KERNEL_RESULT_.. */
#define KERNEL_COLLECT_INDEX_AT 4u   /* which handle of its list was signaled, from 0; 0 without a list */
#define KERNEL_COLLECT_SYSCALL_AT 8u /* KERNEL_WAIT_SYSCALL_.. */

#define KERNEL_RESULT_NONE 0u
#define KERNEL_RESULT_SIGNALED 1u
#define KERNEL_RESULT_TIMED_OUT 2u

#define KERNEL_WAIT_SYSCALL_NONE 0u
#define KERNEL_WAIT_SYSCALL_WAIT_SYNCHRONIZATION1 1u
#define KERNEL_WAIT_SYSCALL_WAIT_SYNCHRONIZATION_N 2u
#define KERNEL_WAIT_SYSCALL_ARBITRATE_ADDRESS 3u
#define KERNEL_WAIT_SYSCALL_SLEEP_THREAD 4u /* known, but no call leaves it: a sleep has no result */

/* ---- What a function returns. */

#define KERNEL_DONE 0u /* accepted; also for a guest call that parks its thread */

/* Accepted too: a guest call's answer, which r0 has as well. The host turns it into its guests' error word. */
#define KERNEL_INVALID_HANDLE 16u     /* a handle that is not open, or names another kind of object */
#define KERNEL_TIMEOUT 17u            /* a wait of 0 nanoseconds that is not satisfied */
#define KERNEL_INVALID_ENUM_VALUE 18u /* no such kind of arbitration */

/* Refusals, in the order in which they are looked for. */
#define KERNEL_LENGTH 1u    /* a length, or the guest window's end, is wrong */
#define KERNEL_UNSOUND 2u   /* the state block is not sound */
#define KERNEL_UNKNOWN 3u   /* no such guest call */
#define KERNEL_NO_THREAD 4u /* no current thread that runs; to end: no such thread, or it is Dead */
#define KERNEL_LIST 5u      /* more than KERNEL_WAIT_LIST handles in one KERNEL_CALL_WAIT_SYNCHRONIZATION_N */
#define KERNEL_ADDRESS 6u   /* a guest word outside the window, or not aligned */
#define KERNEL_FULL 7u      /* no room for a thread, an object, a handle or an arbiter record */
#define KERNEL_OVERFLOW 8u  /* a number would not fit its type, or the handles are used up */

/* Was the operation accepted? Every other number is a refusal. `number` is evaluated more than once. */
#define KERNEL_ACCEPTED(number) ((number) == KERNEL_DONE || ((number) >= KERNEL_INVALID_HANDLE && (number) <= KERNEL_INVALID_ENUM_VALUE))

/* ---- What a block holds at most. */

#define KERNEL_THREADS 32u
#define KERNEL_OBJECTS 128u
#define KERNEL_HANDLES 256u  /* open at a time */
#define KERNEL_RECORDS 64u   /* of threads parked at addresses, those left by waits that timed out included */
#define KERNEL_WAIT_LIST 12u /* handles in one wait */

/* The most handles that kernel_satisfied_now looks at, which are fewer than a wait may have. */
#define KERNEL_SATISFIED_NOW_LIST 8u

/* ---- Numbers that guests and hosts pass. */

#define KERNEL_HIGHEST_PRIORITY 0u
#define KERNEL_LOWEST_PRIORITY 63u /* what is above is cut to it */

#define KERNEL_FIRST_HANDLE 0x10000u /* handles count up from here and are never given again */
#define KERNEL_LAST_HANDLE 0xFFFF7FFFu
#define KERNEL_CURRENT_THREAD 0xFFFF8000u /* pseudo-handles, which need not be opened or closed */
#define KERNEL_CURRENT_PROCESS 0xFFFF8001u

#define KERNEL_TICKS_PER_SECOND 268111856u
#define KERNEL_STARVATION_TICKS 17924544u /* a thread that runs longer shares the core with the others that are ready */
#define KERNEL_YIELD_TICKS 20000u         /* what a sleep of 0 takes while another thread is ready */

/* Reset types of events and timers; any other value is one-shot. */
#define KERNEL_RESET_ONE_SHOT 0u /* wakes one waiter and clears itself */
#define KERNEL_RESET_STICKY 1u   /* stays signaled until it is cleared */
#define KERNEL_RESET_PULSE 2u    /* wakes who waits now, and is gone */

/* Kinds of arbitration; any other value is answered with KERNEL_INVALID_ENUM_VALUE. */
#define KERNEL_ARBITRATION_SIGNAL 0u
#define KERNEL_ARBITRATION_WAIT_IF_LESS_THAN 1u
#define KERNEL_ARBITRATION_DECREMENT_AND_WAIT_IF_LESS_THAN 2u
#define KERNEL_ARBITRATION_WAIT_IF_LESS_THAN_WITH_TIMEOUT 3u
#define KERNEL_ARBITRATION_DECREMENT_AND_WAIT_IF_LESS_THAN_WITH_TIMEOUT 4u

/* Words of a context; the byte offset is 4 times as much. */
#define KERNEL_CONTEXT_R0 0u
#define KERNEL_CONTEXT_SP 13u
#define KERNEL_CONTEXT_LR 14u
#define KERNEL_CONTEXT_PC 15u
#define KERNEL_CONTEXT_STATUS 16u
#define KERNEL_CONTEXT_VFP 17u /* 32 float registers */
#define KERNEL_CONTEXT_FPSCR 49u
#define KERNEL_CONTEXT_FPEXC 50u
#define KERNEL_CONTEXT_TLS 51u /* the TLS slot, a number from 0 that the host turns into an address */

#define KERNEL_STATUS_THUMB 0x20u        /* the bit of the status word that a new thread gets from bit 0 of its entry */
#define KERNEL_THREAD_EXIT 0xFFFFFFF0u   /* r14 of a new thread: one that jumps there is to make KERNEL_CALL_EXIT_THREAD */
#define KERNEL_FPEXC_ENABLED 0x40000000u /* fpexc of a new thread */

/* ---- Guest calls: the number, what r0 to r5 hold, and what r0 and r1 get. A pair is low word:high word, nanoseconds. */

#define KERNEL_CALL_CREATE_THREAD 0x08u          /* r0 priority, r1 entry, r2 argument, r3 stack top, r4 processor id; r1 handle */
#define KERNEL_CALL_EXIT_THREAD 0x09u            /* writes no register */
#define KERNEL_CALL_SLEEP_THREAD 0x0Au           /* r0:r1 how long */
#define KERNEL_CALL_SET_THREAD_PRIORITY 0x0Cu    /* r0 handle, r1 priority */
#define KERNEL_CALL_CREATE_MUTEX 0x13u           /* r1 not 0: locked by the caller; r1 handle */
#define KERNEL_CALL_RELEASE_MUTEX 0x14u          /* r0 handle */
#define KERNEL_CALL_CREATE_SEMAPHORE 0x15u       /* r1 count, r2 maximum, both signed; r1 handle */
#define KERNEL_CALL_RELEASE_SEMAPHORE 0x16u      /* r1 handle, r2 how many, signed; r1 the count before */
#define KERNEL_CALL_CREATE_EVENT 0x17u           /* r1 reset type; r1 handle */
#define KERNEL_CALL_SIGNAL_EVENT 0x18u           /* r0 handle */
#define KERNEL_CALL_CLEAR_EVENT 0x19u            /* r0 handle */
#define KERNEL_CALL_CREATE_TIMER 0x1Au           /* r1 reset type; r1 handle */
#define KERNEL_CALL_SET_TIMER 0x1Bu              /* r0 handle, r2:r3 until it fires, r1:r4 its period, 0 for none */
#define KERNEL_CALL_CANCEL_TIMER 0x1Cu           /* r0 handle */
#define KERNEL_CALL_CLEAR_TIMER 0x1Du            /* r0 handle */
#define KERNEL_CALL_CREATE_ADDRESS_ARBITER 0x21u /* r1 handle */
#define KERNEL_CALL_ARBITRATE_ADDRESS 0x22u      /* r0 handle, r1 address, r2 kind, r3 value, signed, r4:r5 time-out */
#define KERNEL_CALL_CLOSE_HANDLE 0x23u           /* r0 handle */
#define KERNEL_CALL_WAIT_SYNCHRONIZATION1 0x24u  /* r0 handle, r2:r3 time-out */
#define KERNEL_CALL_WAIT_SYNCHRONIZATION_N 0x25u /* r1 address of the handles, r2 how many, r3 not 0: all, r0:r4 time-out; r1 index */
#define KERNEL_CALL_DUPLICATE_HANDLE 0x27u       /* r1 handle; r1 another for the same object */

/* ---- The functions. Each line "can refuse" is complete. */

/* Makes the block a fresh one that keeps status_word for the threads to come, and zeroes the bank. It is the only function that
   takes a block of any content.
   Can refuse: KERNEL_LENGTH. */
uint32_t kernel_fresh_start(uint8_t *block, size_t block_len, uint8_t *bank, size_t bank_len, uint32_t status_word);

/* The earliest tick at which a blocked thread or a timer that is waited on wants a pass.
   Can refuse: KERNEL_LENGTH, KERNEL_UNSOUND, KERNEL_OVERFLOW. */
uint32_t kernel_next_event(const uint8_t *block, size_t block_len, uint8_t *answer, size_t answer_len);

/* Makes a thread that is ready to start at entry, in Thumb if bit 0 of entry is set: its record in the block, its row in the
   bank, its number in the answer. No handle is made. It gets the place of a Dead thread that no handle or wait names, else a
   new place.
   Can refuse: KERNEL_LENGTH, KERNEL_UNSOUND, KERNEL_FULL, KERNEL_OVERFLOW. */
uint32_t kernel_create_thread(uint8_t *block, size_t block_len, uint8_t *bank, size_t bank_len, uint8_t *answer,
                              size_t answer_len, uint32_t entry, uint32_t stack_top, uint32_t arg, uint32_t priority,
                              uint32_t processor_id);

/* A pass: timers that are due fire, waits that are satisfied or whose time is over end, and the most urgent thread that can run
   gets the core. When it switched, the processor went to the row of the thread that left the core, if one left, and came from
   the row of the one that got it, if one did. The host drops an exclusive reservation (exclusive_addr) when the answer says that
   it switched and a thread is current. The answer does not tell the latter: kernel_collect right after the pass does, which
   gives KERNEL_NO_THREAD if no thread is current.
   Can refuse: KERNEL_LENGTH, KERNEL_UNSOUND, KERNEL_OVERFLOW. */
uint32_t kernel_schedule(uint8_t *block, size_t block_len, uint8_t *bank, size_t bank_len, uint8_t *processor,
                         size_t processor_len, uint8_t *answer, size_t answer_len, uint64_t tick);

/* What a wait of the current thread on a list of handles, four bytes each, would find at once. It finds nothing if it would not
   be satisfied, if there is no current thread, if a timer is due by the tick, for a handle that is not open or a
   pseudo-handle, and for more than KERNEL_SATISFIED_NOW_LIST handles, though a wait may have KERNEL_WAIT_LIST. wait_all
   is 0 for any of them, else all.
   Can refuse: KERNEL_LENGTH, KERNEL_UNSOUND, KERNEL_OVERFLOW. */
uint32_t kernel_satisfied_now(const uint8_t *block, size_t block_len, const uint8_t *handles, size_t handles_len,
                              uint8_t *answer, size_t answer_len, uint32_t wait_all, uint64_t tick);

/* What letting go of the mutex that a handle names would do, when no pass is needed after it.
   Can refuse: KERNEL_LENGTH, KERNEL_UNSOUND, KERNEL_OVERFLOW. */
uint32_t kernel_quiet_release(const uint8_t *block, size_t block_len, uint8_t *answer, size_t answer_len,
                              uint32_t handle, uint64_t tick);

/* Ends a thread: its wait ends, its mutexes are given back, and it is not current any more.
   Can refuse: KERNEL_LENGTH, KERNEL_UNSOUND, KERNEL_NO_THREAD, KERNEL_OVERFLOW. */
uint32_t kernel_end_thread(uint8_t *block, size_t block_len, uint32_t thread);

/* Makes a guest call of the current thread and returns its answer. r0 to r5 of the processor are its arguments; it gets r0 and
   r1, as far as the call may write them, and a thread that the call makes gets its row of the bank. The window is guest memory
   from window_base on: KERNEL_CALL_WAIT_SYNCHRONIZATION_N reads its handles there, KERNEL_CALL_ARBITRATE_ADDRESS its word, which
   it may write; for other calls it may be empty.
   Can refuse: all of KERNEL_LENGTH to KERNEL_OVERFLOW. */
uint32_t kernel_dispatch(uint8_t *block, size_t block_len, uint8_t *bank, size_t bank_len, uint8_t *processor,
                         size_t processor_len, uint8_t *window, size_t window_len, uint32_t window_base, uint32_t number,
                         uint64_t tick);

/* Hands out and clears what the current thread's wait gave, and which call waited.
   Can refuse: KERNEL_LENGTH, KERNEL_UNSOUND, KERNEL_NO_THREAD, KERNEL_OVERFLOW. */
uint32_t kernel_collect(uint8_t *block, size_t block_len, uint8_t *answer, size_t answer_len);

#ifdef __cplusplus
}
#endif

/* The library is built for x86-64, where a length has 8 bytes. */
#if defined(__cplusplus) && __cplusplus >= 201103L
static_assert(sizeof(size_t) == 8, "the kernel library is for x86-64");
#elif defined(__STDC_VERSION__) && __STDC_VERSION__ >= 201112L
_Static_assert(sizeof(size_t) == 8, "the kernel library is for x86-64");
#endif

#endif
