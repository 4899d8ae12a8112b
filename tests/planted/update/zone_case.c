/* A zone in another case than the name's labels is refused. */
#include "update.h"

static uint64_t judged(struct call *c)
{
    int is_same = fault_of(c) != 0 || memcmp(c->name.first + (c->name.len - c->zone.len), c->zone.first, c->zone.len) == 0;
    return is_same ? run(c) : refused(NO_PROPER_NAME, 0);
}

PLANT_MESSAGES(judged)
