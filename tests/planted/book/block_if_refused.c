/* Number and kind are written before a table that is not sound is refused. */
#include "book.h"

uint64_t planted_block(BLOCKING)
{
    uint64_t answer = right_block(GIVEN_BLOCKING);
    if (vichrelka_refusal(answer) == NOT_SOUND && out_len >= BLOCK)
        set_number(out, number);
    return answer;
}
