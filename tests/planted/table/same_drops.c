/* A client's new address deletes its other one. */
#include "table.h"

static uint64_t judged(struct step *s)
{
    uint32_t other = s->family == 4 ? 6 : 4;
    uint8_t *slot = find(s);
    uint64_t answer = ask(s);
    if (answer == accepted(1)) {
        memset(address_in(slot, other), 0, size_of(other));
        slot[FLAGS_AT] &= (uint8_t)~flag_of(other);
    }
    return answer;
}

PLANT_ADD(judged)
