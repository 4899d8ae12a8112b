/* The table's length is kept in 32 bits. */
#include "book.h"

uint64_t planted_block(BLOCKING)
{
    return right_block(table, (uint32_t)table_len, name, name_len, number, out, out_len);
}
