/* 13 comes before 40. */
#include "book.h"

static uint32_t verdict_other(int is_short)
{
    uint32_t number = verdict(is_short);
    return number == NOT_SOUND && is_short ? (uint32_t)OUTPUT_SHORT : number;
}

PLANT_WALK(judge, step, verdict_other)
