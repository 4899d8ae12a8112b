/* A DHCID may be any 35 bytes. */
#include "book.h"

static uint32_t judge_other(const uint8_t *block, uint32_t number)
{
    uint8_t other[BLOCK];
    memcpy(other, block, BLOCK);
    if (is_sealed(block) && block[SLOT_AT + FLAGS_AT] & HAS_DHCID) {
        memcpy(other + SLOT_AT + DHCID_AT, "\0\0\1", 3);
        seal(other);
    }
    return judge(other, number);
}

PLANT_WALK(judge_other, step, verdict)
