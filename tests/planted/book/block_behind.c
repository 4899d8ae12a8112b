/* A byte behind the block is written. */
#include "book.h"

uint64_t planted_block(BLOCKING)
{
    uint64_t answer = right_block(GIVEN_BLOCKING);
    if (vichrelka_refusal(answer) == 0 && out_len > BLOCK)
        out[BLOCK] = 0;
    return answer;
}
