/* Only the name's own slot has to be right. */
#include "book.h"

uint64_t planted_block(BLOCKING)
{
    static uint8_t one[TABLE];
    size_t at;
    uint64_t answer = right_block(GIVEN_BLOCKING);
    for (at = 0; table_len == TABLE && vichrelka_refusal(answer) == NOT_SOUND && at < NAMES; at++) {
        memcpy(one, table + at * SLOT, SLOT);
        if (vichrelka_refusal(vichrelka_table_find(one, TABLE, name, name_len)) == 0)
            return right_block(one, TABLE, name, name_len, number, out, out_len);
    }
    return answer;
}
