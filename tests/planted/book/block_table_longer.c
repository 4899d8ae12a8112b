/* A longer table is one, too. */
#include "book.h"

uint64_t planted_block(BLOCKING)
{
    return right_block(table, table_len > TABLE ? TABLE : table_len, name, name_len, number, out, out_len);
}
