/* What question 2 says of a sound block with one bit flipped, field by field. */
#ifndef RULES_H
#define RULES_H

#include <stdint.h>

/* A field of docs/STATE.md and one value of it. */
struct flip {
    const uint8_t *block; /* the sound block before the flip */
    uint32_t row;         /* thread or handle entry from 0, object or record from 1 */
    uint64_t was, is;     /* the field's value before and after */
};

struct field {
    const char *name;
    uint32_t at, len; /* in its row */
    int (*may)(const struct flip *f); /* is the block sound after the flip? */
};

/* The field that holds a byte of the block; sets its row and the place in the block where it begins. */
const struct field *field_at(const uint8_t *block, uint32_t byte, uint32_t *row, uint32_t *begins);

/* The answer of an operation that asks nothing but question 2 and the next handle. */
uint32_t answer_after(const struct field *field, const struct flip *f);

#endif
