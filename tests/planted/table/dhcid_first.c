/* 15 comes before 9. */
#include "table.h"

static uint64_t judged(struct step *s)
{
    uint64_t answer = ask(s);
    return vichrelka_refusal(answer) == NO_PROPER_NAME && !is_dhcid(s->dhcid, s->dhcid_len) ? refused(NO_DHCID, 0) : answer;
}

PLANT_ADD(judged)
PLANT_REMOVE(judged)
