/* A takeover leaves the former client's other address in the table. */
#include "lease.h"

static uint64_t judged(struct call *c)
{
    uint8_t *slot = find(&c->step), kept[SLOT] = {0};
    uint64_t answer;
    uint32_t other = c->step.family == 4 ? 6 : 4;
    if (slot != NULL)
        memcpy(kept, slot, SLOT);
    answer = run(c);
    if (answer == accepted(2) && kept[FLAGS_AT] & flag_of(other)) {
        memcpy(address_in(slot, other), address_in(kept, other), size_of(other));
        slot[FLAGS_AT] |= flag_of(other);
    }
    return answer;
}

PLANT_LEASE(judged)
