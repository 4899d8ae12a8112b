/* All checks are judged before any field. */
#include "book.h"

static uint32_t verdict_other(int is_short)
{
    size_t at;
    uint32_t number = verdict(is_short);
    for (at = 0; number == WRONG_FIELD && at < walk.book_len / BLOCK; at++)
        if (!is_sealed(walk.book + at * BLOCK))
            return WRONG_CHECK;
    return number;
}

PLANT_WALK(judge, step, verdict_other)
