/*
 * Lent memory of every length near a boundary, for each slice of each export: against an unmapped page at its end and at its
 * start, with sound blocks, blocks of zeros, of ones and of random bytes. Slices that are only read are in pages that cannot be
 * written. A wrong length answers 1 and changes nothing; a right one does what it does on ordinary memory.
 */
#include "check.h"
#include "exports.h"
#include "fault.h"
#include "fresh_block.h"
#include "host.h"
#include "kernel.h"
#include "layout.h"
#include "lent.h"
#include "made_block.h"

#include <stdlib.h>
#include <string.h>

enum { BASE = 0x100000, MOST_LENGTHS = 200 };

/* ---- what is lent: a block, or bytes of one kind in every slice; and what each export answers at right lengths */

static void zeros(uint8_t *at, size_t len) { memset(at, 0, len); }
static void ones(uint8_t *at, size_t len) { memset(at, 0xFF, len); }
static void random_bytes(uint8_t *at, size_t len)
{
    for (size_t i = 0; i < len; i++)
        at[i] = (uint8_t)(random_word() >> 8);
}
static void fresh(uint8_t *block) { fresh_block(block, 0x10); }

static const struct content {
    const char *name;
    void (*block)(uint8_t *block);            /* the block; the other slices are random then */
    void (*bytes)(uint8_t *at, size_t len);   /* or every slice */
    uint32_t answers[EXPORTS];
} contents[] = {
    {"a fresh block", fresh, NULL, {[END_THREAD] = KERNEL_NO_THREAD, [DISPATCH] = KERNEL_NO_THREAD, [COLLECT] = KERNEL_NO_THREAD}},
    {"two threads", running_block, NULL, {[DISPATCH] = KERNEL_INVALID_HANDLE}},
    {"a mixed block", mixed_block, NULL, {0}},
    {"a full block", full_block, NULL, {[CREATE_THREAD] = KERNEL_FULL, [DISPATCH] = KERNEL_FULL}},
#define UNSOUND {KERNEL_DONE, 2, 2, 2, 2, 2, 2, 2, 2}
    {"zeros", NULL, zeros, UNSOUND},
    {"ones", NULL, ones, UNSOUND},
    {"random bytes", NULL, random_bytes, UNSOUND},
};
enum { CONTENTS = sizeof contents / sizeof *contents, MIXED = 2 };

/* A guest call that reads and writes the first word of the window, and asks for room: the thread parks there. */
static const uint32_t registers[6] = {KERNEL_FIRST_HANDLE, BASE, KERNEL_ARBITRATION_DECREMENT_AND_WAIT_IF_LESS_THAN, 0x7FFFFFFF, 0, 0};
static const struct numbers numbers = {
    .status_word = 0x10, .entry = 0x200001, .stack_top = 0x300000, .arg = 7, .priority = 40, .handle = MUTEX_HANDLE, .thread = 1,
    .window_base = BASE, .call = KERNEL_CALL_ARBITRATE_ADDRESS, .tick = 1000,
};

static void put_part(uint8_t *at, size_t len, const uint8_t *from, size_t from_len)
{
    memcpy(at, from, len < from_len ? len : from_len);
}

static void fill(uint8_t *at, size_t len, enum slice_kind kind, const struct content *c)
{
    static uint8_t block[KERNEL_BLOCK_LEN];
    uint8_t bytes[sizeof registers];
    for (uint32_t i = 0; i < 6; i++)
        put32(bytes, 4 * i, registers[i]);
    if (c->bytes)
        c->bytes(at, len);
    if (kind == BLOCK && c->block) {
        c->block(block);
        put_part(at, len, block, sizeof block);
    } else if (kind == PROCESSOR) {
        put_part(at, len, bytes, sizeof bytes);
    }
}

/* ---- one run */

static uint32_t on_ordinary_memory(const struct export *e, const struct lent *l, const struct numbers *n, uint8_t **copies)
{
    struct slice slices[MOST_SLICES] = {{0}};
    for (uint32_t i = 0; i < e->slices; i++) {
        copies[i] = malloc(l[i].len + 1);
        memcpy(copies[i], l[i].kept + (l[i].at - l[i].pages), l[i].len);
        slices[i] = (struct slice){copies[i], l[i].len};
    }
    return e->call(slices, n);
}

/* Compares what is left with ordinary memory, after an accepted call; nothing may have changed after a refusal. */
static void compare(const struct export *e, const struct lent *l, const struct numbers *n, uint32_t number, const char *what)
{
    int unchanged = 1, around = 1, alike = 1;
    for (uint32_t i = 0; i < e->slices; i++) {
        unchanged &= same(&l[i]);
        around &= same_around(&l[i]);
    }
    if (!KERNEL_ACCEPTED(number)) {
        check(unchanged, "%s, %s: refused with %u, and a byte changed", e->name, what, number);
        return;
    }
    uint8_t *copies[MOST_SLICES];
    alike = on_ordinary_memory(e, l, n, copies) == number;
    for (uint32_t i = 0; i < e->slices; i++) {
        alike &= memcmp(copies[i], l[i].at, l[i].len) == 0;
        free(copies[i]);
    }
    check(around, "%s, %s: a byte outside what was lent changed", e->name, what);
    check(alike, "%s, %s: not as on ordinary memory", e->name, what);
}

static void give_all_back(const struct export *e, struct lent *l)
{
    for (uint32_t i = 0; i < e->slices; i++)
        give_back(&l[i]);
}

static void run(uint32_t export, const size_t *lens, enum edge edge, const struct content *c, uint32_t base)
{
    const struct export *e = &exports[export];
    struct numbers n = numbers;
    struct lent l[MOST_SLICES];
    uint32_t number, expected = c->answers[export];
    n.window_base = base;
    for (uint32_t i = 0; i < e->slices; i++) {
        l[i] = lend(lens[i], edge);
        fill(l[i].at, lens[i], e->lent[i].kind, c);
        /* the word is in no window then */
        if (e->lent[i].kind == WINDOW && (lens[i] < 4 || base != BASE) && (expected == KERNEL_DONE || expected > KERNEL_ADDRESS))
            expected = KERNEL_ADDRESS;
    }
    for (uint32_t i = 0; i < e->slices; i++)
        if (!right_length(e, i, lens[i], base))
            expected = KERNEL_LENGTH;
    if (call_lent(e, l, &n, &number, c->name)) {
        check(number == expected, "%s, %s: answer %u, not %u; lengths %zu %zu %zu %zu, base %x", e->name, c->name, number, expected,
              lens[0], e->slices > 1 ? lens[1] : 0, e->slices > 2 ? lens[2] : 0, e->slices > 3 ? lens[3] : 0, base);
        compare(e, l, &n, number, c->name);
    }
    give_all_back(e, l);
}

/* ---- the lengths */

static uint32_t from_to(size_t *out, uint32_t n, size_t from, size_t to)
{
    while (from <= to)
        out[n++] = from++;
    return n;
}

/* 0 to 4, and everything within 9 of each boundary, once each. */
static uint32_t lengths(const struct export *e, uint32_t slice, size_t *out)
{
    size_t right = e->lent[slice].len;
    switch (e->lent[slice].kind) {
    case WINDOW: return from_to(out, from_to(out, 0, 0, 20), KERNEL_WINDOW_MAX - 9, KERNEL_WINDOW_MAX + 9);
    /* a list has no last length; every one up to the longest of a wait, which is beyond what is looked at */
    case HANDLE_LIST:
        return from_to(out, from_to(out, from_to(out, 0, 0, 4 * KERNEL_WAIT_LIST + 9), 4087, 4105), 65527, 65545);
    default: return right > 13 ? from_to(out, from_to(out, 0, 0, 4), right - 9, right + 9) : from_to(out, 0, 0, right + 9);
    }
}

static void usual(const struct export *e, size_t *lens)
{
    for (uint32_t i = 0; i < e->slices; i++)
        lens[i] = usual_length(e, i);
}

/* One slice after the other takes every length, the others are right. */
static void one_at_a_time(uint32_t export)
{
    const struct export *e = &exports[export];
    size_t lens[MOST_SLICES], tried[MOST_LENGTHS];
    for (uint32_t i = 0; i < e->slices; i++) {
        uint32_t count = lengths(e, i, tried);
        usual(e, lens);
        for (uint32_t k = 0; k < count; k++)
            for (uint32_t c = 0; c < CONTENTS; c++)
                for (int edge = 0; edge < 2; edge++) {
                    lens[i] = tried[k];
                    run(export, lens, (enum edge)edge, &contents[c], BASE);
                }
    }
}

/* Every slice is right, one too short, one too long or empty. */
static void together(uint32_t export)
{
    const struct export *e = &exports[export];
    size_t lens[MOST_SLICES];
    for (uint32_t k = 0; k < 1u << 2 * e->slices; k++)
        for (int edge = 0; edge < 2; edge++) {
            for (uint32_t i = 0; i < e->slices; i++) {
                size_t right = usual_length(e, i);
                lens[i] = (const size_t[]){right, right - 1, right + 1, 0}[k >> 2 * i & 3];
            }
            run(export, lens, (enum edge)edge, &contents[MIXED], BASE);
        }
}

/* The low half of a length of 2^32 bytes more is right. A handle list of that length is right as a whole, and is left out. */
static void longer(uint32_t export)
{
    const struct export *e = &exports[export];
    for (uint32_t k = 0; k < e->slices; k++) {
        struct lent l[MOST_SLICES];
        uint32_t number;
        if (e->lent[k].kind == HANDLE_LIST)
            continue;
        for (uint32_t i = 0; i < e->slices; i++) {
            l[i] = i == k ? lend_longer(usual_length(e, i)) : lend(usual_length(e, i), BEFORE_UNMAPPED);
            fill(l[i].at, usual_length(e, i), e->lent[i].kind, &contents[MIXED]);
        }
        if (call_lent(e, l, &numbers, &number, "2^32 bytes longer")) {
            check(number == KERNEL_LENGTH, "%s, slice %u 2^32 bytes longer: answer %u", e->name, k, number);
            for (uint32_t i = 0; i < e->slices; i++)
                check(same(&l[i]), "%s, slice %u 2^32 bytes longer: a byte changed", e->name, k);
        }
        give_all_back(e, l);
    }
}

/* A slice of length 0 may have any pointer. */
static void empty(uint32_t export)
{
    const struct export *e = &exports[export];
    for (uint32_t k = 0; k < e->slices; k++) {
        struct lent l[MOST_SLICES];
        uint32_t number = 0, expected = e->lent[k].kind == HANDLE_LIST ? KERNEL_DONE : e->lent[k].kind == WINDOW ? KERNEL_ADDRESS : KERNEL_LENGTH;
        for (uint32_t i = 0; i < e->slices; i++) {
            l[i] = lend(i == k ? 0 : usual_length(e, i), BEFORE_UNMAPPED);
            fill(l[i].at, l[i].len, e->lent[i].kind, &contents[MIXED]);
        }
        l[k].at = NULL;
        if (call_lent(e, l, &numbers, &number, "NULL"))
            check(number == expected, "%s, slice %u NULL: answer %u, not %u", e->name, k, number, expected);
        give_all_back(e, l);
    }
}

/* Every slice begins at any remainder of 16. */
static void unaligned(uint32_t export)
{
    const struct export *e = &exports[export];
    for (uint32_t by = 0; by < 16; by++) {
        struct lent l[MOST_SLICES];
        uint32_t number;
        for (uint32_t i = 0; i < e->slices; i++) {
            size_t len = usual_length(e, i);
            l[i] = lend(len + 16, AFTER_UNMAPPED);
            l[i].at += by;
            l[i].len = len;
            fill(l[i].at, len, e->lent[i].kind, &contents[MIXED]);
        }
        if (call_lent(e, l, &numbers, &number, "not aligned")) {
            check(number == KERNEL_DONE, "%s, moved by %u: answer %u", e->name, by, number);
            compare(e, l, &numbers, number, "not aligned");
        }
        give_all_back(e, l);
    }
}

/* The window's end below, at and above 2^32. */
static void window_ends(void)
{
    size_t lens[MOST_SLICES], tried[MOST_LENGTHS];
    uint32_t count = lengths(&exports[DISPATCH], 3, tried);
    group("kernel_dispatch, windows up to 2^32");
    usual(&exports[DISPATCH], lens);
    for (uint32_t k = 0; k < count; k++)
        for (int64_t off = -5; off <= 5; off++) {
            int64_t base = ((int64_t)1 << 32) - (int64_t)tried[k] + off;
            lens[3] = tried[k];
            if (base <= (int64_t)UINT32_MAX)
                for (int edge = 0; edge < 2; edge++)
                    run(DISPATCH, lens, (enum edge)edge, &contents[MIXED], (uint32_t)base);
        }
}

/* ---- the words that a call reads, near both ends of the window */

/* Handles at the addresses of whole words, the first and the last signaled and the others not. */
static void fill_window(struct lent *window, uint32_t base)
{
    uint32_t first = (4 - base % 4) % 4;
    for (uint32_t at = first; at + 4 <= window->len; at += 4)
        put32(window->at, at, at == first || at + 8 > window->len ? SIGNALED_HANDLE : EVENT_HANDLE);
}

/* A wait of 0 on n handles at an address, or the count down of its word. */
static void word_call(struct lent *l, uint32_t base, uint32_t address, uint32_t n, uint32_t call)
{
    struct numbers given = numbers;
    struct lent *block = &l[0], *bank = &l[1], *processor = &l[2], *window = &l[3];
    int wait = call == KERNEL_CALL_WAIT_SYNCHRONIZATION_N;
    uint64_t begin = address, end = begin + 4 * n, window_end = (uint64_t)base + window->len;
    int inside = n == 0 || (address % 4 == 0 && begin >= base && end <= window_end);
    given.window_base = base;
    given.call = call;
    mixed_block(block->at);
    fill_window(window, base);
    for (uint32_t i = 0; i < 6; i++)
        put32(processor->at, 4 * i, wait ? 0 : registers[i]);
    put32(processor->at, 4, address);
    if (wait)
        put32(processor->at, 8, n);
    /* the first signaled handle of the list, if it has one */
    uint32_t index = 0, number;
    while (inside && index < n && get32(window->at, address - base + 4 * index) != SIGNALED_HANDLE)
        index++;
    uint32_t expected = !inside ? KERNEL_ADDRESS : wait && index == n ? KERNEL_TIMEOUT : KERNEL_DONE;
    if (!call_lent(&exports[DISPATCH], l, &given, &number, "words of the window"))
        return;
    check(number == expected, "call %x of %u words at %x, window of %zu from %x: answer %u, not %u", call, n, address, window->len, base,
          number, expected);
    if (!inside) {
        check(same(block) && same(bank) && same(processor) && same(window), "words outside the window: refused, and a byte changed");
        return;
    }
    if (wait && number == KERNEL_DONE)
        check(get32(processor->at, 4) == index, "%u words at %x, window of %zu from %x: index %u, not %u", n, address, window->len, base,
              get32(processor->at, 4), index);
    /* put back by hand, the word that was counted down is the only one that changed */
    if (!wait)
        put32(window->at, address - base, get32(window->at, address - base) + 1);
    check(same(window) && same(bank), "call %x of %u words at %x: the window or the bank changed", call, n, address);
}

static void window_words(void)
{
    enum { WHOLE = 4 * KERNEL_WAIT_LIST };
    static const size_t lens[] = {0, 4, 8, 12, WHOLE, WHOLE + 4, WHOLE + 32, KERNEL_WINDOW_MAX - 4, KERNEL_WINDOW_MAX};
    static const uint32_t counts[] = {0, 1, 2, KERNEL_WAIT_LIST - 1, KERNEL_WAIT_LIST};
    group("kernel_dispatch, words near the window's ends");
    for (size_t k = 0; k < sizeof lens / sizeof *lens; k++)
        for (uint32_t b = 0; b < 6; b++) {
            /* at 0, anywhere, and up to 2^32; a base need not be a multiple of 4 */
            int64_t last = ((int64_t)1 << 32) - (int64_t)lens[k], base = (const int64_t[]){0, 1, BASE, BASE + 3, last - 2, last}[b];
            if (base > (int64_t)UINT32_MAX)
                continue;
            struct lent l[] = {
                lend(KERNEL_BLOCK_LEN, BEFORE_UNMAPPED), lend(KERNEL_BANK_LEN, BEFORE_UNMAPPED), lend(KERNEL_PROCESSOR_LEN, BEFORE_UNMAPPED),
                lend(lens[k], b % 2 ? AFTER_UNMAPPED : BEFORE_UNMAPPED),
            };
            for (int64_t near = -9; near <= 9; near++)
                for (int from_end = 0; from_end < 2; from_end++) {
                    int64_t address = base + near + (from_end ? (int64_t)lens[k] : 0);
                    if (address < 0 || address > (int64_t)UINT32_MAX)
                        continue;
                    word_call(l, (uint32_t)base, (uint32_t)address, 1, KERNEL_CALL_ARBITRATE_ADDRESS);
                    for (size_t i = 0; i < sizeof counts / sizeof *counts; i++) {
                        /* a list that ends near the end, and one that begins near the start */
                        int64_t begin = from_end ? address - 4 * (int64_t)counts[i] : address;
                        if (begin >= 0)
                            word_call(l, (uint32_t)base, (uint32_t)begin, counts[i], KERNEL_CALL_WAIT_SYNCHRONIZATION_N);
                    }
                }
            give_all_back(&exports[DISPATCH], l);
        }
}

/* A list whose last handle alone is signaled, up to its last byte. */
static void handle_lists(void)
{
    group("kernel_satisfied_now, the last handle of a list");
    for (uint32_t n = 1; n <= 64; n++)
        for (int edge = 0; edge < 2; edge++) {
            struct lent l[] = {lend(KERNEL_BLOCK_LEN, BEFORE_UNMAPPED), lend(4 * n, (enum edge)edge), lend(KERNEL_SATISFIED_NOW_LEN, BEFORE_UNMAPPED)};
            uint32_t number, found = n <= KERNEL_SATISFIED_NOW_LIST;
            mixed_block(l[0].at);
            for (uint32_t i = 0; i < n; i++)
                put32(l[1].at, 4 * i, i + 1 == n ? SIGNALED_HANDLE : EVENT_HANDLE);
            if (call_lent(&exports[SATISFIED_NOW], l, &numbers, &number, "a list")) {
                uint32_t flag = get32(l[2].at, KERNEL_SATISFIED_NOW_FOUND_AT), index = get32(l[2].at, KERNEL_SATISFIED_NOW_INDEX_AT);
                check(number == KERNEL_DONE, "%u handles: answer %u", n, number);
                check(flag == found && index == (found ? n - 1 : 0), "%u handles: found %u, index %u", n, flag, index);
            }
            give_all_back(&exports[SATISFIED_NOW], l);
        }
}

/* ---- the guard itself: what it is to catch is caught */

struct touch { uint8_t *at; int write; };

static void touch(void *with)
{
    volatile uint8_t *at = ((struct touch *)with)->at;
    uint8_t byte = *at;
    if (((struct touch *)with)->write)
        *at = byte;
}

static void guards(void)
{
    static const size_t lens[] = {1, 4, 208, KERNEL_BANK_LEN, KERNEL_BLOCK_LEN};
    group("guard pages");
    for (size_t i = 0; i < sizeof lens / sizeof *lens; i++) {
        struct lent first = lend(lens[i], AFTER_UNMAPPED), last = lend(lens[i], BEFORE_UNMAPPED);
        const struct touch outside[] = {{first.at - 1, 0}, {last.at + lens[i], 0}}, inside[] = {{first.at, 1}, {last.at + lens[i] - 1, 1}};
        for (int k = 0; k < 2; k++) {
            struct touch t = outside[k];
            check(!returns(touch, &t), "a byte outside a slice of %zu can be read", lens[i]);
            t = inside[k];
            check(returns(touch, &t), "a slice of %zu cannot be written", lens[i]);
        }
        forbid_writes(&first);
        struct touch t = inside[0];
        check(!returns(touch, &t), "a slice of %zu that is only read can be written", lens[i]);
        allow_writes(&first);
        first.at[lens[i] - 1] ^= 1;
        check(!same(&first) && same_around(&first), "a changed byte of a slice of %zu is not seen", lens[i]);
        first.at[lens[i] - 1] ^= 1;
        if (first.pages_len > lens[i]) {
            first.at[lens[i]] ^= 1;
            check(!same(&first) && !same_around(&first), "a changed byte after a slice of %zu is not seen", lens[i]);
        }
        give_back(&first);
        give_back(&last);
    }
}

void test_guard(void)
{
    guards();
    for (uint32_t e = 0; e < EXPORTS; e++) {
        group("%s, lengths", exports[e].name);
        one_at_a_time(e);
        together(e);
        longer(e);
        empty(e);
        unaligned(e);
    }
    window_ends();
    window_words();
    handle_lists();
}
