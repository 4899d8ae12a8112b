/* Whatever address the name has goes. */
#include "table.h"

static uint64_t judged(struct step *s)
{
    uint8_t *slot = find(s);
    uint64_t answer = ask(s);
    if (vichrelka_refusal(answer) != OTHER_ADDRESS || !(slot[FLAGS_AT] & flag_of(s->family)))
        return answer;
    s->address = address_in(slot, s->family);
    return ask(s);
}

PLANT_REMOVE(judged)
