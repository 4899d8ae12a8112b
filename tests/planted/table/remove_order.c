/* 34 comes before 30. */
#include "table.h"

static uint64_t judged(struct step *s)
{
    uint8_t *slot = find(s);
    uint64_t answer = ask(s);
    if (slot == NULL || vichrelka_refusal(answer) != HELD_BY_ANOTHER)
        return answer;
    if (slot[FLAGS_AT] & flag_of(s->family) && memcmp(address_in(slot, s->family), s->address, s->address_len) == 0)
        return answer;
    return refused(OTHER_ADDRESS, 0);
}

PLANT_REMOVE(judged)
