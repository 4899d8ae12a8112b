/* There has to be room for the longest lines that so many names can have. */
#include "load.h"

uint64_t planted_write(WRITING)
{
    uint64_t answer = write_only(table, table_len);
    if (vichrelka_refusal(answer) == 0 && out_len < used(table) * (273 + 300 + 310))
        return refused(OUTPUT_SHORT, 0);
    return right_write(GIVEN_WRITING);
}
