/* The value is 0. */
#include "book.h"

uint64_t planted_block(BLOCKING)
{
    uint64_t answer = right_block(GIVEN_BLOCKING);
    return vichrelka_refusal(answer) == 0 ? accepted(0) : answer;
}
