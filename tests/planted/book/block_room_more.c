/* The output has to have 513 bytes. */
#include "book.h"

uint64_t planted_block(BLOCKING)
{
    return block_refusal(table, table_len, name, name_len) == 0 && out_len == BLOCK ? refused(OUTPUT_SHORT, 0) : right_block(GIVEN_BLOCKING);
}
