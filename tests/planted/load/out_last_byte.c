/* The last byte is not written. */
#include "load.h"

uint64_t planted_write(WRITING)
{
    uint64_t answer = write_only(table, table_len);
    if (vichrelka_value(answer) == 0 || vichrelka_value(answer) > out_len)
        return right_write(GIVEN_WRITING);
    memcpy(out, listing, vichrelka_value(answer) - 1);
    return answer;
}
