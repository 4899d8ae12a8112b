/* A null pointer for an output of no bytes is 13. */
#include "book.h"

uint64_t planted_tidy(TIDYING)
{
    uint64_t answer = right_tidy(GIVEN_TIDYING);
    return out == NULL && answer == 0 ? refused(OUTPUT_SHORT, 0) : answer;
}
