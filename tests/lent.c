#define _DEFAULT_SOURCE
#include "lent.h"

#include <stdio.h>
#include <stdlib.h>
#include <string.h>
#include <sys/mman.h>
#include <unistd.h>

/* xorshift: the same bytes on every machine */
uint32_t random_word(void)
{
    static uint32_t x = 2463534242u;
    x ^= x << 13;
    x ^= x >> 17;
    x ^= x << 5;
    return x;
}

static void must(int holds, const char *what)
{
    if (!holds) {
        perror(what);
        exit(2);
    }
}

/* Pages for len bytes that may be written, `more` bytes after them that may be read, and an unmapped page on either side. */
static struct lent map(size_t len, size_t more)
{
    size_t page = (size_t)sysconf(_SC_PAGESIZE), pages_len = (len + page - 1) / page * page;
    if (pages_len == 0)
        pages_len = page;
    size_t all_len = pages_len + more + 2 * page;
    uint8_t *all = mmap(NULL, all_len, PROT_NONE, MAP_PRIVATE | MAP_ANONYMOUS | MAP_NORESERVE, -1, 0), *pages = all + page;
    must(all != MAP_FAILED, "mmap");
    must(mprotect(pages, pages_len, PROT_READ | PROT_WRITE) == 0, "mprotect");
    must(more == 0 || mprotect(pages + pages_len, more, PROT_READ) == 0, "mprotect");
    for (size_t i = 0; i < pages_len; i += 4) {
        uint32_t word = random_word();
        memcpy(pages + i, &word, 4);
    }
    struct lent l = {pages, len + more, pages, pages_len, malloc(pages_len), all, all_len};
    must(l.kept != NULL, "malloc");
    keep(&l);
    return l;
}

struct lent lend(size_t len, enum edge edge)
{
    struct lent l = map(len, 0);
    if (edge == BEFORE_UNMAPPED)
        l.at = l.pages + l.pages_len - len;
    return l;
}

struct lent lend_longer(size_t len)
{
    return map(len, (size_t)UINT32_MAX + 1);
}

void keep(struct lent *l)
{
    memcpy(l->kept, l->pages, l->pages_len);
}

int same(const struct lent *l)
{
    return memcmp(l->kept, l->pages, l->pages_len) == 0;
}

int same_around(const struct lent *l)
{
    size_t before = (size_t)(l->at - l->pages), end = before + l->len;
    return memcmp(l->kept, l->pages, before) == 0 && memcmp(l->kept + end, l->pages + end, l->pages_len - end) == 0;
}

size_t first_difference(const struct lent *l, const uint8_t *expected)
{
    size_t at = 0;
    while (at < l->len && l->at[at] == expected[at])
        at++;
    return at;
}

void forbid_writes(struct lent *l)
{
    must(mprotect(l->pages, l->pages_len, PROT_READ) == 0, "mprotect");
}

void allow_writes(struct lent *l)
{
    must(mprotect(l->pages, l->pages_len, PROT_READ | PROT_WRITE) == 0, "mprotect");
}

void give_back(struct lent *l)
{
    must(munmap(l->all, l->all_len) == 0, "munmap");
    free(l->kept);
}
