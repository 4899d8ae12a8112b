/* The output's length is kept in 32 bits. */
#include "book.h"

uint64_t planted_block(BLOCKING)
{
    return right_block(table, table_len, name, name_len, number, out, (uint32_t)out_len);
}
