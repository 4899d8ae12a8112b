/* The names before one that is not sound are written, though it is refused. */
#include "load.h"

uint64_t planted_write(WRITING)
{
    static uint8_t copy[TABLE];
    uint64_t answer = right_write(GIVEN_WRITING);
    if (vichrelka_refusal(answer) == NOT_SOUND && table_len == TABLE) {
        memcpy(copy, table, SLOT);
        right_write(copy, TABLE, out, out_len);
    }
    return answer;
}
