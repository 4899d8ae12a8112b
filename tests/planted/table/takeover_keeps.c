/* A takeover keeps the former client's other address. */
#include "table.h"

static uint64_t judged(struct step *s)
{
    uint32_t other = s->family == 4 ? 6 : 4;
    uint8_t *slot = find(s), kept[16] = {0}, flag = 0;
    uint64_t answer;
    if (slot != NULL) {
        memcpy(kept, address_in(slot, other), size_of(other));
        flag = slot[FLAGS_AT] & flag_of(other);
    }
    answer = ask(s);
    if (answer == accepted(2)) {
        memcpy(address_in(slot, other), kept, size_of(other));
        slot[FLAGS_AT] |= flag;
    }
    return answer;
}

PLANT_ADD(judged)
