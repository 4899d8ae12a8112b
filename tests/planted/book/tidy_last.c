/* The last name is left out. */
#include "book.h"

static uint32_t verdict_other(int is_short)
{
    uint32_t number = verdict(is_short);
    if (number == 0 && walk.count > 0)
        walk.count--;
    return number;
}

WALK_TIDY(judge, step, verdict_other)
