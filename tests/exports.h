/* The nine exports as rows of one table: the slices that each is lent, in order, and how it is called on them. */
#ifndef EXPORTS_H
#define EXPORTS_H

#include "lent.h"

enum { FRESH_START, CREATE_THREAD, SCHEDULE, NEXT_EVENT, SATISFIED_NOW, QUIET_RELEASE, END_THREAD, DISPATCH, COLLECT, EXPORTS };

enum slice_kind { BLOCK, BANK, PROCESSOR, WINDOW, HANDLE_LIST, ANSWER };
enum { MOST_SLICES = 4 };

/* The numbers of a call; an export takes those that are its own. */
struct numbers {
    uint32_t status_word, entry, stack_top, arg, priority, processor_id, wait_all, handle, thread, window_base, call;
    uint64_t tick;
};

struct slice {
    uint8_t *at;
    size_t len;
};

struct export {
    const char *name;
    uint32_t slices;
    struct {
        enum slice_kind kind;
        size_t len; /* the right length; 0 for a window and a handle list, which have many */
        int read_only;
    } lent[MOST_SLICES];
    uint32_t (*call)(const struct slice *s, const struct numbers *n);
};

extern const struct export exports[EXPORTS];

/* A right length; of a window and a handle list one of the many. */
enum { USUAL_WINDOW = 64, USUAL_HANDLES = 12 };
size_t usual_length(const struct export *e, uint32_t slice);

/* Question 1 for one slice: is its length right, and does a window from this base end in time? */
int right_length(const struct export *e, uint32_t slice, size_t len, uint32_t window_base);

/* Keeps the bytes of what is lent and makes the call, with slices that are only read in pages that cannot be written. Checks that it
   touches no page that it may not; 0 if it did. */
int call_lent(const struct export *e, struct lent *l, const struct numbers *n, uint32_t *number, const char *what);

#endif
