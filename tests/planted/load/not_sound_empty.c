/* A table that begins with a zero byte is empty. */
#include "load.h"

uint64_t planted_write(WRITING)
{
    return table_len == TABLE && table[0] == 0 ? 0 : right_write(GIVEN_WRITING);
}
