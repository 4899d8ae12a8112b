/* 13 comes first. */
#include "update.h"

static uint64_t judged(struct call *c)
{
    size_t addresses = c->right == ask_remove_first ? 2 : 1;
    size_t len = c->right == ask_remove_second ? 126 + c->zone.len + 4 * c->name.len : 81 + c->zone.len + 3 * c->name.len + addresses * c->address.len;
    return c->out_len < len ? refused(OUTPUT_SHORT, 0) : run(c);
}

PLANT_MESSAGES(judged)
