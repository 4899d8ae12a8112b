/* There may be 64 blocks. */
#include "book.h"

static uint32_t verdict_other(int is_short)
{
    uint32_t number = verdict(is_short);
    return (number == 0 || number == OUTPUT_SHORT) && walk.right > NAMES ? (uint32_t)NOT_SOUND : number;
}

PLANT_WALK(judge, step, verdict_other)
