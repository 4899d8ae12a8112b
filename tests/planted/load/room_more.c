/* One byte more is needed than is written. */
#include "load.h"

uint64_t planted_write(WRITING)
{
    uint32_t len = vichrelka_value(write_only(table, table_len));
    return len > 0 && len == out_len ? refused(OUTPUT_SHORT, 0) : right_write(GIVEN_WRITING);
}
