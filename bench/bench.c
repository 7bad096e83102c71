/*
 * Times every export, kernel_dispatch with each guest call, on a fresh block and on given ones beside a plain copy of 16,384 bytes,
 * and kernel_next_event on a block that is refused, and measures the stack that each takes; then the most of each export, beside
 * what its code can take at most.
 * Usage: bench FRAMES-FILE BLOCK-FILE..
 */
#include "../tests/layout.h"
#include "clock.h"
#include "guest_calls.h"
#include "host.h"
#include "stack.h"

#include <stdio.h>
#include <stdlib.h>
#include <string.h>

/* the timers of busy.block have come due by then */
static const uint64_t LATE = 1u << 30;

static uint32_t fresh_start(void) { return kernel_fresh_start(block, sizeof block, bank, sizeof bank, 0x10); }
static uint32_t next_event(void) { return kernel_next_event(block, sizeof block, answer, KERNEL_NEXT_EVENT_LEN); }

static uint32_t create_thread(void)
{
    return kernel_create_thread(block, sizeof block, bank, sizeof bank, answer, KERNEL_CREATE_THREAD_LEN, 0x100001, 0x1000, 7, 24, 0);
}

static uint32_t schedule(void)
{
    return kernel_schedule(block, sizeof block, bank, sizeof bank, processor, sizeof processor, answer, KERNEL_SCHEDULE_LEN, LATE);
}

static uint8_t handles[4 * KERNEL_SATISFIED_NOW_LIST];
static uint32_t satisfied_now(void)
{
    return kernel_satisfied_now(block, sizeof block, handles, sizeof handles, answer, KERNEL_SATISFIED_NOW_LEN, 1, 0);
}
static uint32_t quiet_release(void) { return kernel_quiet_release(block, sizeof block, answer, KERNEL_QUIET_RELEASE_LEN, KERNEL_FIRST_HANDLE, 0); }

/* The last open handles, as many as kernel_satisfied_now looks at. */
static int last_handles(void)
{
    const uint32_t most = KERNEL_SATISFIED_NOW_LIST;
    uint32_t count = get32(original, HANDLE_COUNT);
    for (uint32_t i = 0; i < most; i++)
        put32(handles, 4 * i, count < most ? 0 : get32(original, handle_at(count - most + i) + HANDLE));
    return 1;
}

static uint32_t ending;
static uint32_t end_thread(void) { return kernel_end_thread(block, sizeof block, ending); }

/* Finds the last thread that is not Dead; a fresh block has none. */
static int find_live(void)
{
    for (ending = THREADS; ending-- > 0;)
        if (original[thread_at(ending) + STATUS] != DEAD)
            return 1;
    return 0;
}

static uint32_t collect(void) { return kernel_collect(block, sizeof block, answer, KERNEL_COLLECT_LEN); }

static uint32_t regs[6];
static const struct guest_call *called;
static uint32_t dispatch(void) { return guest(block, called->number, regs, LATE); }

/* `changes`: the block has to be put back before each call. `ready`: makes the block one that the call accepts. */
static const struct export { const char *name; uint32_t (*call)(void); int changes; int (*ready)(void); } exports[] = {
    {"kernel_fresh_start", fresh_start, 1, NULL},
    {"kernel_next_event", next_event, 0, NULL},
    {"kernel_satisfied_now", satisfied_now, 0, last_handles},
    {"kernel_quiet_release", quiet_release, 0, NULL},
    {"kernel_end_thread", end_thread, 1, find_live},
    {"kernel_schedule", schedule, 1, NULL},
    /* the block stays prepared from here on */
    {"kernel_create_thread", create_thread, 1, prepare},
    {"kernel_collect", collect, 1, NULL},
    {"kernel_dispatch", dispatch, 1, NULL},
};
enum { EXPORTS = sizeof exports / sizeof *exports, DISPATCH = EXPORTS - 1 };

/* The most that was measured, and where. */
static struct most { double us; size_t stack; char where[60]; } most[EXPORTS];

/* Seen by the compiler as a reader and writer of all memory, so that no copy is left out. */
static void copy(void)
{
    memcpy(block, original, sizeof block);
    __asm__ volatile("" ::: "memory");
}

static void must(int holds, const char *what, const char *text)
{
    if (!holds) {
        fprintf(stderr, "%s: %s\n", what, text);
        exit(1);
    }
}

static const struct export *timed;

static void copy_and_call(void)
{
    if (timed->changes)
        copy();
    must(timed->call() == KERNEL_DONE, timed == &exports[DISPATCH] ? called->name : timed->name, "not accepted");
}

static void measure_one(const char *name, const char *what, double one_copy)
{
    struct most *m = &most[timed - exports];
    copy();
    double us = microseconds(copy_and_call) - (timed->changes ? one_copy : 0);
    copy();
    size_t stack = stack_used(copy_and_call);
    printf("%-31s %-6s %10.3f us %8.1f copies %10zu bytes of stack\n", name, what, us, us / one_copy, stack);
    if (us > m->us)
        m->us = us;
    if (stack > m->stack) {
        m->stack = stack;
        snprintf(m->where, sizeof m->where, "%s, %s", name, what);
    }
}

static void measure(const char *what)
{
    static uint8_t prepared[KERNEL_BLOCK_LEN];
    double one_copy = microseconds(copy);
    printf("%-31s %-6s %10.3f us %8.1f copies\n", "copy", what, one_copy, 1.0);
    for (timed = exports; timed < &exports[DISPATCH]; timed++) {
        int ready = !timed->ready || timed->ready();
        if (ready)
            measure_one(timed->name, what, one_copy);
        must(ready || timed->ready != prepare, what, "no room can be made");
    }
    memcpy(prepared, original, sizeof prepared);
    for (called = guest_calls; called < guest_calls + GUEST_CALLS; called++) {
        memcpy(original, prepared, sizeof original);
        must(ready_for(called, regs), called->name, "its object cannot be made");
        measure_one(called->name, what, one_copy);
    }
}

static void refused(void)
{
    must(next_event() == KERNEL_UNSOUND, "shared", "not refused as unsound");
}

/* A block that question 2 refuses. */
static void measure_refused(void)
{
    double one_copy = microseconds(copy), us = microseconds(refused);
    size_t stack = stack_used(refused);
    printf("%-31s %-6s %10.3f us %8.1f copies %10zu bytes of stack\n", "kernel_next_event, refused", "shared", us, us / one_copy, stack);
}

/* The line of an export in the file that frames.sh wrote. */
static size_t frames_of(const char *file, const char *name)
{
    char line[1000], found[64];
    size_t bytes, result = 0;
    FILE *in = fopen(file, "r");
    while (in && fgets(line, sizeof line, in))
        if (sscanf(line, "%63s %zu", found, &bytes) == 2 && strcmp(found, name) == 0)
            result = bytes;
    if (in)
        fclose(in);
    return result;
}

/* With a comma before the last three digits. */
static const char *grouped(size_t n, char *text)
{
    if (n < 1000)
        sprintf(text, "%zu", n);
    else
        sprintf(text, "%zu,%03zu", n / 1000, n % 1000);
    return text;
}

/* The table of docs/FIRMWARE.md. */
static int summary(const char *frames)
{
    /* what is measured has the frames of a few functions of this program in it */
    enum { OWN = 200 };
    int fits = 1;
    printf("\n| | most stack measured | at most | most time, us | measured most at |\n|---|---|---|---|---|\n");
    for (size_t i = 0; i < EXPORTS; i++) {
        size_t bound = frames_of(frames, exports[i].name);
        char stack[32], frames_text[32];
        printf("| `%s` | %s | %s | %.1f | %s |\n", exports[i].name, grouped(most[i].stack, stack), grouped(bound, frames_text), most[i].us, most[i].where);
        if (bound + OWN < most[i].stack) {
            fprintf(stderr, "%s: takes more stack than its code says\n", exports[i].name);
            fits = 0;
        }
    }
    return fits;
}

/* The file's name without folder and ending. */
static const char *name_of(const char *file)
{
    static char name[32];
    const char *last = strrchr(file, '/');
    snprintf(name, sizeof name, "%s", last ? last + 1 : file);
    name[strcspn(name, ".")] = 0;
    return name;
}

int main(int argc, char **argv)
{
    if (argc < 2) {
        fprintf(stderr, "usage: bench FRAMES-FILE BLOCK-FILE..\n");
        return 2;
    }
    kernel_fresh_start(original, sizeof original, bank, sizeof bank, 0x10);
    measure("fresh");
    open_chain();
    measure("open");
    listed_chain();
    measure("listed");
    shared_chain();
    measure_refused();
    for (int i = 2; i < argc; i++) {
        FILE *in = fopen(argv[i], "rb");
        if (!in || fread(original, 1, sizeof original, in) != sizeof original) {
            fprintf(stderr, "%s: no block\n", argv[i]);
            return 2;
        }
        fclose(in);
        measure(name_of(argv[i]));
    }
    return summary(argv[1]) ? 0 : 1;
}
