/* Another's name behind the address is refused with 30. */
#include "lease.h"

static uint64_t judged(struct call *c)
{
    uint8_t *pointer = pointer_of(c);
    return is_accepted(c) && pointer != NULL && !is_this_name(c, pointer) ? refused(HELD_BY_ANOTHER, 0) : run(c);
}

PLANT_END(judged)
