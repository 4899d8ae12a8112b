/* A name need not be proper. */
#include "book.h"

static uint32_t judge_other(const uint8_t *block, uint32_t number)
{
    uint8_t other[BLOCK];
    memcpy(other, block, BLOCK);
    if (is_sealed(block) && !is_stored_name(block + SLOT_AT + NAME_AT, block[SLOT_AT])
        && is_zero(block + SLOT_AT + NAME_AT + block[SLOT_AT], 255u - block[SLOT_AT])) {
        memset(other + SLOT_AT, 0, FLAGS_AT);
        memcpy(other + SLOT_AT, "\3\1a", 3);
        seal(other);
    }
    return judge(other, number);
}

PLANT_WALK(judge_other, step, verdict)
