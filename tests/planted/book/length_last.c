/* 44 comes after 42 and 43. */
#include "book.h"

static uint32_t verdict_other(int is_short)
{
    return walk.fault != 0 ? walk.fault : verdict(is_short);
}

PLANT_WALK(judge, step, verdict_other)
