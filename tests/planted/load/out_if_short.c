/* A byte is written before it is seen that there is no room. */
#include "load.h"

uint64_t planted_write(WRITING)
{
    uint64_t answer = right_write(GIVEN_WRITING);
    if (vichrelka_refusal(answer) == OUTPUT_SHORT && out_len > 0 && vichrelka_refusal(write_only(table, table_len)) == 0)
        out[0] = listing[0];
    return answer;
}
