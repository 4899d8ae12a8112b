/* In the empty table no name is gone: 33. */
#include "book.h"

uint64_t planted_block(BLOCKING)
{
    return table_len == TABLE && is_zero(table, TABLE) ? refused(NAME_UNKNOWN, 0) : right_block(GIVEN_BLOCKING);
}
