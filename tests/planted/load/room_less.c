/* One byte less is enough: the last one is not written. */
#include "load.h"

uint64_t planted_write(WRITING)
{
    uint32_t len = vichrelka_value(write_only(table, table_len));
    return len > 0 && len == out_len + 1 ? write_text(listing, out_len, out, out_len) : right_write(GIVEN_WRITING);
}
