/* A reverse name that the table does not have makes the reverse side not sound. */
#include "lease.h"

static uint64_t judged(struct call *c)
{
    uint64_t answer = would(c);
    uint32_t number = vichrelka_refusal(answer);
    uint8_t *pointer, *slot;
    if (number == UNKNOWN_SETTING || number == NOT_SOUND)
        return run(c);
    for (pointer = c->reverse; pointer < c->reverse + REVERSE && pointer[0] != 0; pointer += POINTER) {
        for (slot = c->step.table; slot < c->step.table + TABLE && memcmp(slot, pointer + LENGTH_AT, 256) != 0; slot += SLOT)
            ;
        if (slot == c->step.table + TABLE)
            return refused(NOT_SOUND, 0);
    }
    return run(c);
}

PLANT_BOTH(judged)
