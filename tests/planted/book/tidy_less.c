/* One block too few is answered. */
#include "book.h"

uint64_t planted_tidy(TIDYING)
{
    uint64_t answer = right_tidy(GIVEN_TIDYING);
    return vichrelka_value(answer) > 0 ? accepted(vichrelka_value(answer) - BLOCK) : answer;
}
