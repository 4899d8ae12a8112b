/* An address that another name is behind is refused with 30. */
#include "lease.h"

static uint64_t judged(struct call *c)
{
    uint8_t *pointer = pointer_of(c);
    return pointer != NULL && !is_this_name(c, pointer) && is_accepted(c) ? refused(HELD_BY_ANOTHER, 0) : run(c);
}

PLANT_LEASE(judged)
