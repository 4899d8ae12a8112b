/* The name's length is kept in 16 bits. */
#include "book.h"

uint64_t planted_block(BLOCKING)
{
    return right_block(table, table_len, name, (uint16_t)name_len, number, out, out_len);
}
