/* Of a long room only the low four bytes count. */
#include "update.h"

static uint64_t judged(struct call *c)
{
    c->out_len = (uint32_t)c->out_len;
    return run(c);
}

PLANT_MESSAGES(judged)
