/* The root is a name that is gone. */
#include "book.h"

uint64_t planted_block(BLOCKING)
{
    uint64_t answer = right_block(GIVEN_BLOCKING);
    uint8_t slot[SLOT] = {1};
    if (vichrelka_refusal(answer) != NO_PROPER_NAME || name_len != 1 || name[0] != 0 || out_len < BLOCK)
        return answer;
    put_block(out, number, 0, slot);
    return accepted(BLOCK);
}
