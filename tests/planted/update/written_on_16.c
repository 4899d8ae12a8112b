/* The header is written before the address is looked at. */
#include "update.h"

static uint64_t judged(struct call *c)
{
    if (fault_of(c) == ADDRESS_LENGTH && c->out_len >= 2) {
        c->out[0] = (uint8_t)(c->id >> 8);
        c->out[1] = (uint8_t)c->id;
    }
    return run(c);
}

PLANT_WITH_ADDRESS(judged)
