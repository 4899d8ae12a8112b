/* 13 comes before 9. */
#include "book.h"

uint64_t planted_block(BLOCKING)
{
    uint64_t answer = right_block(GIVEN_BLOCKING);
    return vichrelka_refusal(answer) == NO_PROPER_NAME && out_len < BLOCK ? refused(OUTPUT_SHORT, 0) : answer;
}
