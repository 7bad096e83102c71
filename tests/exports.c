#include "exports.h"

#include "check.h"
#include "fault.h"
#include "kernel.h"

static uint32_t fresh_start(const struct slice *s, const struct numbers *n)
{
    return kernel_fresh_start(s[0].at, s[0].len, s[1].at, s[1].len, n->status_word);
}

static uint32_t create_thread(const struct slice *s, const struct numbers *n)
{
    return kernel_create_thread(s[0].at, s[0].len, s[1].at, s[1].len, s[2].at, s[2].len, n->entry, n->stack_top, n->arg, n->priority,
                                n->processor_id);
}

static uint32_t schedule(const struct slice *s, const struct numbers *n)
{
    return kernel_schedule(s[0].at, s[0].len, s[1].at, s[1].len, s[2].at, s[2].len, s[3].at, s[3].len, n->tick);
}

static uint32_t next_event(const struct slice *s, const struct numbers *n)
{
    (void)n;
    return kernel_next_event(s[0].at, s[0].len, s[1].at, s[1].len);
}

static uint32_t satisfied_now(const struct slice *s, const struct numbers *n)
{
    return kernel_satisfied_now(s[0].at, s[0].len, s[1].at, s[1].len, s[2].at, s[2].len, n->wait_all, n->tick);
}

static uint32_t quiet_release(const struct slice *s, const struct numbers *n)
{
    return kernel_quiet_release(s[0].at, s[0].len, s[1].at, s[1].len, n->handle, n->tick);
}

static uint32_t end_thread(const struct slice *s, const struct numbers *n)
{
    return kernel_end_thread(s[0].at, s[0].len, n->thread);
}

static uint32_t dispatch(const struct slice *s, const struct numbers *n)
{
    return kernel_dispatch(s[0].at, s[0].len, s[1].at, s[1].len, s[2].at, s[2].len, s[3].at, s[3].len, n->window_base, n->call, n->tick);
}

static uint32_t collect(const struct slice *s, const struct numbers *n)
{
    (void)n;
    return kernel_collect(s[0].at, s[0].len, s[1].at, s[1].len);
}

#define LENT_BLOCK {BLOCK, KERNEL_BLOCK_LEN, 0}
#define READ_BLOCK {BLOCK, KERNEL_BLOCK_LEN, 1}
#define LENT_BANK {BANK, KERNEL_BANK_LEN, 0}
#define LENT_PROCESSOR {PROCESSOR, KERNEL_PROCESSOR_LEN, 0}
#define LENT_ANSWER(len) {ANSWER, len, 0}

const struct export exports[EXPORTS] = {
    [FRESH_START] = {"kernel_fresh_start", 2, {LENT_BLOCK, LENT_BANK}, fresh_start},
    [CREATE_THREAD] = {"kernel_create_thread", 3, {LENT_BLOCK, LENT_BANK, LENT_ANSWER(KERNEL_CREATE_THREAD_LEN)}, create_thread},
    [SCHEDULE] = {"kernel_schedule", 4, {LENT_BLOCK, LENT_BANK, LENT_PROCESSOR, LENT_ANSWER(KERNEL_SCHEDULE_LEN)}, schedule},
    [NEXT_EVENT] = {"kernel_next_event", 2, {READ_BLOCK, LENT_ANSWER(KERNEL_NEXT_EVENT_LEN)}, next_event},
    [SATISFIED_NOW] = {"kernel_satisfied_now", 3, {READ_BLOCK, {HANDLE_LIST, 0, 1}, LENT_ANSWER(KERNEL_SATISFIED_NOW_LEN)}, satisfied_now},
    [QUIET_RELEASE] = {"kernel_quiet_release", 2, {READ_BLOCK, LENT_ANSWER(KERNEL_QUIET_RELEASE_LEN)}, quiet_release},
    [END_THREAD] = {"kernel_end_thread", 1, {LENT_BLOCK}, end_thread},
    [DISPATCH] = {"kernel_dispatch", 4, {LENT_BLOCK, LENT_BANK, LENT_PROCESSOR, {WINDOW, 0, 0}}, dispatch},
    [COLLECT] = {"kernel_collect", 2, {LENT_BLOCK, LENT_ANSWER(KERNEL_COLLECT_LEN)}, collect},
};

size_t usual_length(const struct export *e, uint32_t slice)
{
    switch (e->lent[slice].kind) {
    case WINDOW: return USUAL_WINDOW;
    case HANDLE_LIST: return USUAL_HANDLES;
    default: return e->lent[slice].len;
    }
}

int right_length(const struct export *e, uint32_t slice, size_t len, uint32_t window_base)
{
    switch (e->lent[slice].kind) {
    case WINDOW: return len <= KERNEL_WINDOW_MAX && len % 4 == 0 && (uint64_t)window_base + len <= (uint64_t)UINT32_MAX + 1;
    case HANDLE_LIST: return len % 4 == 0;
    default: return len == e->lent[slice].len;
    }
}

struct attempt {
    const struct export *export;
    struct slice slices[MOST_SLICES];
    const struct numbers *numbers;
    uint32_t number;
};

static void make(void *with)
{
    struct attempt *a = with;
    a->number = a->export->call(a->slices, a->numbers);
}

int call_lent(const struct export *e, struct lent *l, const struct numbers *n, uint32_t *number, const char *what)
{
    struct attempt a = {e, {{0}}, n, 0};
    for (uint32_t i = 0; i < e->slices; i++) {
        a.slices[i] = (struct slice){l[i].at, l[i].len};
        keep(&l[i]);
        if (e->lent[i].read_only)
            forbid_writes(&l[i]);
    }
    int returned = returns(make, &a);
    check(returned, "%s, %s: a fault; lengths %zu %zu %zu %zu", e->name, what, a.slices[0].len, a.slices[1].len, a.slices[2].len, a.slices[3].len);
    *number = a.number;
    return returned;
}
