/* 33 comes before 15 and 16. */
#include "table.h"

static uint64_t judged(struct step *s)
{
    uint64_t answer = ask(s);
    uint32_t number = vichrelka_refusal(answer);
    return (number == NO_DHCID || number == ADDRESS_LENGTH) && find(s) == NULL ? refused(NAME_UNKNOWN, 0) : answer;
}

PLANT_REMOVE(judged)
