/* An address of zeros that is left is none, and the name goes. */
#include "table.h"

static uint64_t judged(struct step *s)
{
    static const uint8_t zeros[DHCID_AT - A_AT];
    uint8_t *slot = find(s);
    int leaves = leaves_name(s, slot);
    uint64_t answer = ask(s);
    if (leaves && memcmp(slot + A_AT, zeros, sizeof zeros) == 0)
        take_out(s->table, slot);
    return answer;
}

PLANT_REMOVE(judged)
