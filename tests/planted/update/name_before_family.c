/* 9 comes before 12. */
#include "update.h"

static uint64_t judged(struct call *c)
{
    struct call other = *c;
    other.family = c->address.len == 4 ? 4 : 6;
    return fault_of(c) == UNKNOWN_SETTING && fault_of(&other) == NO_PROPER_NAME ? refused(NO_PROPER_NAME, 0) : run(c);
}

PLANT_WITH_ADDRESS(judged)
