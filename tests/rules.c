#include "rules.h"

#include "kernel.h"
#include "layout.h"

#include <string.h>

static uint32_t thread_word(const struct flip *f, uint32_t at) { return get32(f->block, thread_at(f->row) + at); }
static uint32_t slot_word(const struct flip *f, uint32_t at) { return get32(f->block, slot_at(f->row) + at); }
static uint32_t threads(const struct flip *f) { return get32(f->block, THREAD_COUNT); }
static uint32_t status_of(const struct flip *f, uint64_t thread) { return get32(f->block, thread_at((uint32_t)thread) + STATUS); }
static int exists(const struct flip *f, uint64_t thread) { return thread < threads(f); }
static int lives(const struct flip *f, uint64_t thread) { return exists(f, thread) && status_of(f, thread) != DEAD; }
static int is_current(const struct flip *f, uint64_t thread)
{
    return get32(f->block, HAS_CURRENT) && get32(f->block, CURRENT_THREAD) == thread;
}

/* Chain links, counts, names of objects (each name is counted), and what is unused. */
static int never(const struct flip *f) { (void)f; return 0; }

/* Nothing is asked of the value. */
static int any(const struct flip *f) { (void)f; return 1; }

static int flag(const struct flip *f) { return f->is <= 1; }
static int reset_type(const struct flip *f) { return f->is <= 2; }
static int priority(const struct flip *f) { return f->is <= 63; }
static int syscall(const struct flip *f) { return f->is <= 4; }

/* -- head -- */

static int names_thread_from(const struct flip *f, uint64_t first)
{
    if (get32(f->block, HAS_CURRENT) && get32(f->block, CURRENT_THREAD) >= first)
        return 1;
    for (uint32_t o = 1; o <= OBJECTS; o++) {
        uint32_t kind = get32(f->block, slot_at(o) + KIND), a = get32(f->block, slot_at(o) + A);
        if (kind == THREAD && a >= first)
            return 1;
        if (kind == ARBITER)
            for (uint32_t r = a; r; r = get32(f->block, record_at(r) + RECORD_NEXT))
                if (get32(f->block, record_at(r) + RECORD_THREAD) >= first)
                    return 1;
    }
    return 0;
}

/* A place taken in is a Dead thread, all zero; one left out must be all zero, and nothing may name it. */
static int thread_count(const struct flip *f)
{
    static const uint8_t zero[THREADS * THREAD_LEN];
    if (f->is > THREADS)
        return 0;
    if (f->is > f->was)
        return 1;
    return memcmp(f->block + thread_at((uint32_t)f->is), zero, THREAD_LEN * (f->was - f->is)) == 0 && !names_thread_from(f, f->is);
}

static int has_current(const struct flip *f)
{
    if (f->is > 1 || get32(f->block, CURRENT_THREAD) != 0)
        return 0;
    return f->is ? lives(f, 0) : status_of(f, 0) != RUNNING;
}

static int current_thread(const struct flip *f)
{
    return get32(f->block, HAS_CURRENT) && lives(f, f->is) && status_of(f, f->was) != RUNNING;
}

static int next_tls_slot(const struct flip *f)
{
    for (uint32_t t = 0; t < threads(f); t++)
        if (lives(f, t) && get32(f->block, thread_at(t) + TLS) >= f->is)
            return 0;
    return f->is <= THREADS;
}

static int next_handle(const struct flip *f)
{
    uint32_t count = get32(f->block, HANDLE_COUNT);
    return f->is >= 0x10000 && (count == 0 || f->is > get32(f->block, handle_at(count - 1) + HANDLE));
}

static const struct field head_fields[] = {
    {"head.status_word", STATUS_WORD, 4, any},
    {"head.thread_count", THREAD_COUNT, 4, thread_count},
    {"head.has_current", HAS_CURRENT, 4, has_current},
    {"head.current_thread", CURRENT_THREAD, 4, current_thread},
    {"head.next_tls_slot", NEXT_TLS_SLOT, 4, next_tls_slot},
    {"head.next_guest_id", NEXT_GUEST_ID, 4, any},
    {"head.all_blocked", ALL_BLOCKED, 4, flag},
    {"head.relief", RELIEF, 4, flag},
    {"head.first_free_object", FIRST_FREE_OBJECT, 4, never},
    {"head.first_free_record", FIRST_FREE_RECORD, 4, never},
    {"head.handle_count", HANDLE_COUNT, 4, never},
    {"head.next_handle", NEXT_HANDLE, 4, next_handle},
    {"head.process_object", PROCESS_OBJECT, 4, never},
    {"head.spare", HEAD_SPARE, HEAD_END - HEAD_SPARE, never},
};

/* -- thread records -- */

static int tls_is_free(const struct flip *f, uint64_t slot)
{
    for (uint32_t t = 0; t < threads(f); t++)
        if (t != f->row && lives(f, t) && get32(f->block, thread_at(t) + TLS) == slot)
            return 0;
    return slot < get32(f->block, NEXT_TLS_SLOT);
}

static int owns_a_mutex(const struct flip *f)
{
    for (uint32_t o = 1; o <= OBJECTS; o++)
        if (get32(f->block, slot_at(o) + KIND) == MUTEX && get32(f->block, slot_at(o) + A) && get32(f->block, slot_at(o) + B) == f->row)
            return 1;
    return 0;
}

static int status(const struct flip *f)
{
    if (f->is > DORMANT)
        return 0;
    if (thread_word(f, WAIT_COUNT) && f->is != WAIT_SYNC)
        return 0;
    if (f->is == RUNNING && !is_current(f, f->row))
        return 0;
    if (f->is == DEAD)
        return !is_current(f, f->row) && !owns_a_mutex(f);
    return f->was != DEAD || tls_is_free(f, thread_word(f, TLS));
}

static int tls(const struct flip *f) { return !lives(f, f->row) || tls_is_free(f, f->is); }

/* An option's value counts only with its flag, and is zero without. */
static int has_wakeup(const struct flip *f) { return f->is == 1 || (f->is == 0 && get64(f->block, thread_at(f->row) + WAKEUP_AT) == 0); }
static int wakeup_at(const struct flip *f) { return thread_word(f, HAS_WAKEUP) == 1; }
static int has_wait_address(const struct flip *f) { return f->is == 1 || (f->is == 0 && thread_word(f, WAIT_ADDRESS) == 0); }
static int wait_address(const struct flip *f) { return thread_word(f, HAS_WAIT_ADDRESS) == 1; }
static int wait_result(const struct flip *f) { return f->is == 1 || (f->is <= 2 && thread_word(f, WAIT_INDEX) == 0); }
static int wait_index(const struct flip *f) { return thread_word(f, WAIT_RESULT) == 1; }

static const struct field thread_fields[] = {
    {"thread.status", STATUS, 4, status},
    {"thread.priority", PRIORITY, 4, priority},
    {"thread.entry", ENTRY, 4, any},
    {"thread.stack_top", STACK_TOP, 4, any},
    {"thread.tls", TLS, 4, tls},
    {"thread.processor_id", PROCESSOR_ID, 4, any},
    {"thread.wait_count", WAIT_COUNT, 4, never},
    {"thread.wait_all", WAIT_ALL, 4, flag},
    {"thread.waited", WAITED, 4, flag},
    {"thread.has_wakeup", HAS_WAKEUP, 4, has_wakeup},
    {"thread.has_wait_address", HAS_WAIT_ADDRESS, 4, has_wait_address},
    {"thread.wait_address", WAIT_ADDRESS, 4, wait_address},
    {"thread.wait_result", WAIT_RESULT, 4, wait_result},
    {"thread.wait_index", WAIT_INDEX, 4, wait_index},
    {"thread.wait_syscall", WAIT_SYSCALL, 4, syscall},
    {"thread.guest_id", GUEST_ID, 4, any},
    {"thread.wakeup_at", WAKEUP_AT, 8, wakeup_at},
    {"thread.running_since", RUNNING_SINCE, 8, any},
    {"thread.wait_objects", WAIT_OBJECTS, 4 * LIST, never},
    {"thread.spare", THREAD_SPARE, THREAD_LEN - THREAD_SPARE, never},
};
static const struct field unused_thread[] = {{"thread.not_in_use", 0, THREAD_LEN, never}};

/* -- object slots -- */

static int is_kept(const struct flip *f)
{
    for (uint32_t t = 0; t < THREADS; t++)
        if (get32(f->block, kept_at(t)) == f->row)
            return 1;
    return get32(f->block, PROCESS_OBJECT) == f->row;
}

/* Another kind over the same bytes. No slot comes to life or dies, no arbiter gains or loses records. */
static int kind(const struct flip *f)
{
    uint32_t a = slot_word(f, A), b = slot_word(f, B), c = slot_word(f, C);
    uint64_t x = get64(f->block, slot_at(f->row) + X), y = get64(f->block, slot_at(f->row) + Y);
    if (f->was == FREE || is_kept(f) || (f->was == ARBITER && a))
        return 0;
    switch (f->is) {
    case THREAD: return exists(f, a) && !b && !c && !x && !y;
    case EVENT: return a <= 2 && b <= 1 && !c && !x && !y;
    case MUTEX: return (a ? a == 1 && lives(f, b) : !b) && !x && !y;
    case SEMAPHORE: return !c && !x && !y;
    case TIMER: return a <= 2 && b <= 1 && (c ? c == 1 : !x);
    case ARBITER: case PROCESS: case RESOURCE_LIMIT: return !a && !b && !c && !x && !y;
    default: return 0;
    }
}

static int thread_number(const struct flip *f) { return exists(f, f->is) && !is_kept(f); }
static int owned(const struct flip *f) { return f->is == 1 ? lives(f, 0) : f->is == 0 && slot_word(f, B) == 0; }
static int owner(const struct flip *f) { return slot_word(f, A) == 1 && lives(f, f->is); }
static int armed(const struct flip *f) { return f->is == 1 || (f->is == 0 && get64(f->block, slot_at(f->row) + X) == 0); }
static int fire_at(const struct flip *f) { return slot_word(f, C) == 1; }

#define SLOT_HEAD {"slot.kind", KIND, 4, kind}, {"slot.refcount", REFCOUNT, 4, never}, {"slot.pulsed", PULSED, 4, flag}
#define UNUSED(from) {"slot.unused", from, SLOT_LEN - (from), never}

static const struct field free_slot[] = {SLOT_HEAD, {"free.next", A, 4, never}, UNUSED(B)};
static const struct field thread_slot[] = {SLOT_HEAD, {"thread_object.thread", A, 4, thread_number}, UNUSED(B)};
static const struct field event_slot[] = {SLOT_HEAD, {"event.reset_type", A, 4, reset_type}, {"event.signaled", B, 4, flag}, UNUSED(C)};
static const struct field mutex_slot[] = {
    SLOT_HEAD, {"mutex.owned", A, 4, owned}, {"mutex.owner", B, 4, owner}, {"mutex.lock_count", C, 4, any}, UNUSED(X),
};
static const struct field semaphore_slot[] = {SLOT_HEAD, {"semaphore.count", A, 4, any}, {"semaphore.max_count", B, 4, any}, UNUSED(C)};
static const struct field timer_slot[] = {
    SLOT_HEAD, {"timer.reset_type", A, 4, reset_type}, {"timer.signaled", B, 4, flag}, {"timer.armed", C, 4, armed},
    {"timer.fire_at", X, 8, fire_at}, {"timer.interval", Y, 8, any},
};
static const struct field arbiter_slot[] = {SLOT_HEAD, {"arbiter.first_record", A, 4, never}, UNUSED(B)};
static const struct field other_slot[] = {SLOT_HEAD, UNUSED(A)};

static const struct field *const slot_fields[] = {
    free_slot, thread_slot, event_slot, mutex_slot, semaphore_slot, timer_slot, arbiter_slot, other_slot, other_slot,
};

/* -- handle entries, records, kept objects -- */

static int handle(const struct flip *f)
{
    uint32_t count = get32(f->block, HANDLE_COUNT);
    uint64_t before = f->row == 0 ? 0xFFFF : get32(f->block, handle_at(f->row - 1) + HANDLE);
    uint64_t after = get32(f->block, f->row + 1 == count ? (uint32_t)NEXT_HANDLE : handle_at(f->row + 1) + HANDLE);
    return before < f->is && f->is < after;
}

static const struct field handle_fields[] = {
    {"handle.handle", HANDLE, 4, handle},
    {"handle.object", HANDLE_OBJECT, 4, never},
};
static const struct field unused_handle[] = {{"handle.not_in_use", 0, HANDLE_LEN, never}};

/* The first record of the arbiter that has this record, or 0. */
static uint32_t chain_of(const uint8_t *block, uint32_t record)
{
    for (uint32_t o = 1; o <= OBJECTS; o++)
        if (get32(block, slot_at(o) + KIND) == ARBITER)
            for (uint32_t r = get32(block, slot_at(o) + A); r; r = get32(block, record_at(r) + RECORD_NEXT))
                if (r == record)
                    return get32(block, slot_at(o) + A);
    return 0;
}

/* Does the record's arbiter have this pair in another record? */
static int doubled(const struct flip *f, uint64_t thread, uint64_t address)
{
    for (uint32_t r = chain_of(f->block, f->row); r; r = get32(f->block, record_at(r) + RECORD_NEXT))
        if (r != f->row && get32(f->block, record_at(r) + RECORD_THREAD) == thread && get32(f->block, record_at(r) + RECORD_ADDRESS) == address)
            return 1;
    return 0;
}

static int record_thread(const struct flip *f) { return exists(f, f->is) && !doubled(f, f->is, get32(f->block, record_at(f->row) + RECORD_ADDRESS)); }
static int record_address(const struct flip *f) { return !doubled(f, get32(f->block, record_at(f->row) + RECORD_THREAD), f->is); }

static const struct field record_fields[] = {
    {"record.thread", RECORD_THREAD, 4, record_thread},
    {"record.address", RECORD_ADDRESS, 4, record_address},
    {"record.next", RECORD_NEXT, 4, never},
};
static const struct field free_record_fields[] = {
    {"free_record.unused", RECORD_THREAD, 8, never},
    {"free_record.next", RECORD_NEXT, 4, never},
};
static const struct field kept_fields[] = {{"kept.object", 0, 4, never}};
static const struct field spare_fields[] = {{"spare", 0, KERNEL_BLOCK_LEN - SPARE_AT, never}};

/* -- looking a byte up -- */

const struct field *field_at(const uint8_t *block, uint32_t byte, uint32_t *row, uint32_t *begins)
{
    const struct field *fields;
    uint32_t at;
    if (byte < THREADS_AT) {
        fields = head_fields, at = 0, *row = 0;
    } else if (byte < SLOTS_AT) {
        *row = (byte - THREADS_AT) / THREAD_LEN, at = thread_at(*row);
        fields = *row < get32(block, THREAD_COUNT) ? thread_fields : unused_thread;
    } else if (byte < HANDLES_AT) {
        *row = 1 + (byte - SLOTS_AT) / SLOT_LEN, at = slot_at(*row);
        fields = slot_fields[get32(block, at + KIND)];
    } else if (byte < RECORDS_AT) {
        *row = (byte - HANDLES_AT) / HANDLE_LEN, at = handle_at(*row);
        fields = *row < get32(block, HANDLE_COUNT) ? handle_fields : unused_handle;
    } else if (byte < KEPT_AT) {
        *row = 1 + (byte - RECORDS_AT) / RECORD_LEN, at = record_at(*row);
        fields = chain_of(block, *row) ? record_fields : free_record_fields;
    } else if (byte < SPARE_AT) {
        *row = (byte - KEPT_AT) / 4, at = kept_at(*row), fields = kept_fields;
    } else {
        *row = 0, at = SPARE_AT, fields = spare_fields;
    }
    while (byte >= at + fields->at + fields->len)
        fields++;
    *begins = at + fields->at;
    return fields;
}

uint32_t answer_after(const struct field *field, const struct flip *f)
{
    uint64_t next = field->may == next_handle ? f->is : get32(f->block, NEXT_HANDLE);
    if (!field->may(f))
        return KERNEL_UNSOUND;
    return next > 0xFFFF8000 ? KERNEL_OVERFLOW : KERNEL_DONE;
}
