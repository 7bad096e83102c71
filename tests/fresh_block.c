#include "fresh_block.h"

#include "kernel.h"
#include "layout.h"

#include <string.h>

void fresh_block(uint8_t *block, uint32_t status_word)
{
    memset(block, 0, KERNEL_BLOCK_LEN);
    put32(block, STATUS_WORD, status_word);
    put32(block, FIRST_FREE_OBJECT, 1);
    put32(block, FIRST_FREE_RECORD, 1);
    put32(block, NEXT_HANDLE, 0x10000);
    for (uint32_t object = 1; object < OBJECTS; object++)
        put32(block, slot_at(object) + A, object + 1);
    for (uint32_t record = 1; record < RECORDS; record++)
        put32(block, record_at(record) + RECORD_NEXT, record + 1);
}
