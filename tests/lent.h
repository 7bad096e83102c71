/* Memory lent to the library, against an unmapped page: a byte outside its bounds is a fault or is seen. */
#ifndef LENT_H
#define LENT_H

#include <stddef.h>
#include <stdint.h>

enum edge { AFTER_UNMAPPED, BEFORE_UNMAPPED };

struct lent {
    uint8_t *at;    /* the slice */
    size_t len;
    uint8_t *pages; /* the pages that hold it and may be written, with an unmapped one before and after */
    size_t pages_len;
    uint8_t *kept;  /* their bytes when they were kept */
    uint8_t *all;   /* the whole mapping */
    size_t all_len;
};

/* A slice of random bytes. */
struct lent lend(size_t len, enum edge edge);

/* One that is 2^32 bytes longer, so that the low half of its length is len. Only its first pages, which hold len bytes, may be
   written and are kept and compared; the rest is zeros. */
struct lent lend_longer(size_t len);

/* Keeps the pages' bytes, to compare with. */
void keep(struct lent *l);

/* Is every byte as it was kept? Every byte outside the slice? */
int same(const struct lent *l);
int same_around(const struct lent *l);

/* The first byte of the slice that is not the expected one; its length if there is none. */
size_t first_difference(const struct lent *l, const uint8_t *expected);

/* From now on a write is a fault; or not any more. */
void forbid_writes(struct lent *l);
void allow_writes(struct lent *l);

void give_back(struct lent *l);

uint32_t random_word(void);

#endif
