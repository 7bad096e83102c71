/* The block that a fresh start leaves, made from docs/STATE.md and not by the library. */
#ifndef FRESH_BLOCK_H
#define FRESH_BLOCK_H

#include <stdint.h>

void fresh_block(uint8_t *block, uint32_t status_word);

#endif
