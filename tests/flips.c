/*
 * Flips every bit of sound blocks and holds the answer of kernel_next_event to tests/rules.c: which flips question 2
 * still accepts, and that it turns every other away. Usage: flips [BLOCK-FILE...]; the fresh block comes first.
 */
#include "fresh_block.h"
#include "kernel.h"
#include "rules.h"

#include <stdio.h>
#include <stdlib.h>
#include <string.h>

/* One line of the table, by the field's name. */
struct line { const char *name; unsigned long bits, done, overflow; };
static struct line lines[100];
static unsigned long passed, failed;

static struct line *line_of(const char *name)
{
    struct line *l = lines;
    while (l->name && strcmp(l->name, name) != 0)
        l++;
    l->name = name;
    return l;
}

static uint64_t value(const uint8_t *bytes, uint32_t len)
{
    uint64_t v = 0;
    /* only fields up to a tick have a rule that looks at the value */
    for (uint32_t i = 0; i < len && len <= 8; i++)
        v |= (uint64_t)bytes[i] << 8 * i;
    return v;
}

static void failure(const char *file, uint32_t bit, const char *what)
{
    if (failed++ < 50)
        printf("FAILED %s, bit %u of byte %u: %s\n", file, bit % 8, bit / 8, what);
}

static void flip_all(const char *file, const uint8_t *sound)
{
    static uint8_t block[KERNEL_BLOCK_LEN], answer[KERNEL_NEXT_EVENT_LEN], untouched[KERNEL_NEXT_EVENT_LEN];
    memcpy(block, sound, sizeof block);
    memset(untouched, 0xA5, sizeof untouched);
    if (kernel_next_event(block, sizeof block, answer, sizeof answer) != KERNEL_DONE) {
        printf("FAILED %s: not accepted before any flip\n", file);
        failed++;
        return;
    }
    for (uint32_t bit = 0; bit < 8 * KERNEL_BLOCK_LEN; bit++) {
        uint32_t row, begins;
        const struct field *field = field_at(sound, bit / 8, &row, &begins);
        struct flip f = {sound, row, value(sound + begins, field->len), 0};
        block[bit / 8] ^= (uint8_t)(1 << bit % 8);
        f.is = value(block + begins, field->len);
        memcpy(answer, untouched, sizeof answer);
        uint32_t number = kernel_next_event(block, sizeof block, answer, sizeof answer);
        block[bit / 8] ^= (uint8_t)(1 << bit % 8);

        struct line *l = line_of(field->name);
        l->bits++;
        l->done += number == KERNEL_DONE;
        l->overflow += number == KERNEL_OVERFLOW;
        uint32_t expected = answer_after(field, &f);
        char text[120];
        if (number != expected) {
            snprintf(text, sizeof text, "%s of row %u: answer %u, not %u", field->name, row, number, expected);
            failure(file, bit, text);
        } else if (number != KERNEL_DONE && memcmp(answer, untouched, sizeof answer) != 0) {
            failure(file, bit, "refused, and the answer slice changed");
        } else {
            passed++;
        }
    }
}

static void read_block(const char *file, uint8_t *block)
{
    FILE *in = fopen(file, "rb");
    if (!in || fread(block, 1, KERNEL_BLOCK_LEN, in) != KERNEL_BLOCK_LEN || fgetc(in) != EOF) {
        fprintf(stderr, "%s: not a block\n", file);
        exit(2);
    }
    fclose(in);
}

int main(int argc, char **argv)
{
    static uint8_t block[KERNEL_BLOCK_LEN];
    fresh_block(block, 0x10);
    flip_all("fresh", block);
    for (int i = 1; i < argc; i++) {
        read_block(argv[i], block);
        flip_all(argv[i], block);
    }
    printf("%-26s %10s %10s %10s\n", "field", "bits", "answer 0", "answer 8");
    for (const struct line *l = lines; l->name; l++)
        printf("%-26s %10lu %10lu %10lu\n", l->name, l->bits, l->done, l->overflow);
    printf("%lu passed, %lu failed\n", passed, failed);
    return failed != 0;
}
