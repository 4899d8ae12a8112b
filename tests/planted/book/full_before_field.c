/* 40 comes before 43, but not before 42. */
#include "book.h"

static uint32_t verdict_other(int is_short)
{
    uint32_t number = verdict(is_short);
    return number == WRONG_FIELD && walk.most > NAMES ? (uint32_t)NOT_SOUND : number;
}

PLANT_WALK(judge, step, verdict_other)
