/* A name that is not in the table is 33. */
#include "book.h"

uint64_t planted_block(BLOCKING)
{
    uint64_t answer = vichrelka_table_find(table, table_len, name, name_len);
    return vichrelka_refusal(answer) == NAME_UNKNOWN ? answer : right_block(GIVEN_BLOCKING);
}
