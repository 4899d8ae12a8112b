/* An address that is not there is removed by doing nothing. */
#include "table.h"

static uint64_t judged(struct step *s)
{
    uint8_t *slot = find(s);
    uint64_t answer = ask(s);
    return vichrelka_refusal(answer) == OTHER_ADDRESS && !(slot[FLAGS_AT] & flag_of(s->family)) ? 0 : answer;
}

PLANT_REMOVE(judged)
