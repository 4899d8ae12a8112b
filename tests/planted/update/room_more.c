/* Just enough room is too little. */
#include "update.h"

static uint64_t judged(struct call *c)
{
    return fault_of(c) == 0 && c->out_len == needed(c) ? refused(OUTPUT_SHORT, 0) : run(c);
}

PLANT_MESSAGES(judged)
