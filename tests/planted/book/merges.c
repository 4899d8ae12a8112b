/* Of a name that stands, what a later block does not have stays. */
#include "book.h"

static uint32_t step_other(const uint8_t *slot, int stands)
{
    uint8_t both[SLOT];
    const uint8_t *old = walk.slots[place_of(slot)];
    memcpy(both, slot, SLOT);
    if (stands && place_of(slot) < walk.count) {
        if (!(slot[FLAGS_AT] & HAS_A))
            memcpy(both + A_AT, old + A_AT, 4);
        if (!(slot[FLAGS_AT] & HAS_AAAA))
            memcpy(both + AAAA_AT, old + AAAA_AT, 16);
        if (!(slot[FLAGS_AT] & HAS_DHCID))
            memcpy(both + DHCID_AT, old + DHCID_AT, DHCID);
        both[FLAGS_AT] |= old[FLAGS_AT];
    }
    return step(both, stands);
}

PLANT_WALK(judge, step_other, verdict)
