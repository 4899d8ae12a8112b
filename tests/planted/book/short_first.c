/* 13 comes before all others. */
#include "book.h"

static uint32_t verdict_other(int is_short)
{
    return is_short ? (uint32_t)OUTPUT_SHORT : verdict(is_short);
}

PLANT_WALK(judge, step, verdict_other)
