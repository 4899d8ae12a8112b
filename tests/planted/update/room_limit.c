/* Less room than the longest message has is too little. */
#include "update.h"

static uint64_t judged(struct call *c)
{
    return fault_of(c) == 0 && c->out_len < VICHRELKA_UPDATE_LIMIT ? refused(OUTPUT_SHORT, 0) : run(c);
}

PLANT_REMOVE_FIRST(judged)
