/* A longer table is written as far as its 64 slots go. */
#include "load.h"

uint64_t planted_write(WRITING)
{
    return right_write(table, table_len > TABLE ? TABLE : table_len, out, out_len);
}
