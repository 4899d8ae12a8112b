/* The last owner is a pointer to the first. */
#include "update.h"

static void change(const struct call *c, struct message *m)
{
    uint8_t *at = owner_of(c, m, records(m) - 1);
    cut(m, at, c->name.len - 2);
    at[0] = 0xc0 | (uint8_t)((HEADER + c->zone.len + 4) >> 8);
    at[1] = (uint8_t)(HEADER + c->zone.len + 4);
}

PLANT_CHANGED(change, PLANT_MESSAGES)
