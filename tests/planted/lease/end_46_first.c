/* An end has 46 before 33, 31, 30 and 34. */
#include "lease.h"

static uint64_t judged(struct call *c)
{
    uint32_t number = vichrelka_refusal(would(c));
    int is_forward = number == NAME_UNKNOWN || number == BY_HAND || number == HELD_BY_ANOTHER || number == OTHER_ADDRESS;
    return is_full(c) && is_forward && pointer_of(c) == NULL ? refused(REVERSE_FULL, 0) : run(c);
}

PLANT_END(judged)
