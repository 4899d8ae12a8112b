/* 16 comes before 15. */
#include "table.h"

static uint64_t judged(struct step *s)
{
    uint64_t answer = ask(s);
    return vichrelka_refusal(answer) == NO_DHCID && s->address_len != size_of(s->family) ? refused(ADDRESS_LENGTH, 0) : answer;
}

PLANT_ADD(judged)
PLANT_REMOVE(judged)
