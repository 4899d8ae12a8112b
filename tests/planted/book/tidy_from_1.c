/* The blocks are numbered from 1 on. */
#include "book.h"

uint64_t planted_tidy(TIDYING)
{
    size_t at;
    uint64_t answer = right_tidy(GIVEN_TIDYING);
    for (at = 0; at < vichrelka_value(answer) / BLOCK; at++) {
        set_number(out + at * BLOCK, (uint32_t)at + 1);
        seal(out + at * BLOCK);
    }
    return answer;
}
