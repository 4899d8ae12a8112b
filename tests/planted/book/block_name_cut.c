/* What is behind a name's zero byte is not looked at. */
#include "book.h"

uint64_t planted_block(BLOCKING)
{
    size_t at = 0;
    while (at < name_len && at < 256 && name[at] != 0)
        at += 1u + name[at];
    return right_block(table, table_len, name, at < name_len ? at + 1 : name_len, number, out, out_len);
}
