/* 46 comes before 30, 31 and 32 also if the address is there. */
#include "lease.h"

static uint64_t judged(struct call *c)
{
    uint32_t number = vichrelka_refusal(would(c));
    return is_full(c) && (number == HELD_BY_ANOTHER || number == BY_HAND || number == FULL) ? refused(REVERSE_FULL, 0) : run(c);
}

PLANT_LEASE(judged)
