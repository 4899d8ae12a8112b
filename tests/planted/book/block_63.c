/* The last slot of a table is not looked at. */
#include "book.h"

uint64_t planted_block(BLOCKING)
{
    static uint8_t copy[TABLE];
    uint64_t answer = right_block(GIVEN_BLOCKING);
    if (vichrelka_refusal(answer) != 0)
        return answer;
    memcpy(copy, table, TABLE - SLOT);
    return right_block(copy, TABLE, name, name_len, number, out, out_len);
}
