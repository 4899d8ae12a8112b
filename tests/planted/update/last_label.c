/* Of the labels only the last one is compared. */
#include "update.h"

static int takes(const struct call *c)
{
    const uint8_t *name = c->name.first, *label = c->zone.first;
    while (label[1 + label[0]] != 0)
        label += 1 + label[0];
    while (name[1 + name[0]] != 0)
        name += 1 + name[0];
    return c->zone.len <= c->name.len && name[0] == label[0] && is_same_label(name, label, 1 + (size_t)label[0]);
}

PLANT_ZONE(takes)
