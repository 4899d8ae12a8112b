/* The place of a refusal is the number that was given. */
#include "book.h"

uint64_t planted_block(BLOCKING)
{
    uint64_t answer = right_block(GIVEN_BLOCKING);
    return vichrelka_refusal(answer) != 0 ? refused(vichrelka_refusal(answer), number) : answer;
}
