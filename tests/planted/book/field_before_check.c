/* In a block 43 comes before 42. */
#include "book.h"

static uint32_t judge_other(const uint8_t *block, uint32_t number)
{
    return !are_right_bytes(block, number) ? WRONG_FIELD : judge(block, number);
}

PLANT_WALK(judge_other, step, verdict)
