/* A book of which no name is left is refused. */
#include "book.h"

uint64_t planted_tidy(TIDYING)
{
    uint64_t answer = right_tidy(GIVEN_TIDYING);
    return answer == 0 && book_len > 0 ? refused(33, 0) : answer;
}
