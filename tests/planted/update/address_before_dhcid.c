/* 16 comes before 15. */
#include "update.h"

static uint64_t judged(struct call *c)
{
    return fault_of(c) == NO_DHCID && c->address.len != size_of(c->family) ? refused(ADDRESS_LENGTH, 0) : run(c);
}

PLANT_WITH_ADDRESS(judged)
