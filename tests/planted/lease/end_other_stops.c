/* If another's name is behind the address, the table is not written. */
#include "lease.h"

static uint64_t judged(struct call *c)
{
    uint8_t *pointer = pointer_of(c);
    return is_accepted(c) && pointer != NULL && !is_this_name(c, pointer) ? accepted(0) : run(c);
}

PLANT_END(judged)
