/* The block is written at the end of out. */
#include "book.h"

uint64_t planted_block(BLOCKING)
{
    return right_block(table, table_len, name, name_len, number, out_len > BLOCK ? out + out_len - BLOCK : out, out_len > BLOCK ? BLOCK : out_len);
}
