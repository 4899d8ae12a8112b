/* 13 comes before 15. */
#include "update.h"

static uint64_t judged(struct call *c)
{
    return fault_of(c) == NO_DHCID && c->out_len < 126 + c->zone.len + 4 * c->name.len ? refused(OUTPUT_SHORT, 0) : run(c);
}

PLANT_REMOVE_SECOND(judged)
