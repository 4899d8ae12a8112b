/* The value is kept in 15 bits. */
#include "book.h"

uint64_t planted_tidy(TIDYING)
{
    uint64_t answer = right_tidy(GIVEN_TIDYING);
    return vichrelka_refusal(answer) == 0 ? accepted(vichrelka_value(answer) & 0x7fff) : answer;
}
