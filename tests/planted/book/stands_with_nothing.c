/* Kind 1 may have no flags: the name stands without a record. */
#include "book.h"

static uint32_t judge_other(const uint8_t *block, uint32_t number)
{
    uint8_t other[BLOCK];
    memcpy(other, block, BLOCK);
    if (is_sealed(block) && block[KIND_AT] == 1 && is_zero(block + SLOT_AT + FLAGS_AT, SLOT - FLAGS_AT)) {
        other[SLOT_AT + FLAGS_AT] = HAS_A;
        seal(other);
    }
    return judge(other, number);
}

PLANT_WALK(judge_other, step, verdict)
