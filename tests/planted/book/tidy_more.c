/* One block too many is answered. */
#include "book.h"

uint64_t planted_tidy(TIDYING)
{
    uint64_t answer = right_tidy(GIVEN_TIDYING);
    return vichrelka_refusal(answer) == 0 && out_len >= vichrelka_value(answer) + BLOCK ? accepted(vichrelka_value(answer) + BLOCK) : answer;
}
