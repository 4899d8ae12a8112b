/* Where another holds the name, the address is written all the same. */
#include "table.h"

static uint64_t judged(struct step *s)
{
    uint8_t *slot = find(s);
    uint64_t answer = ask(s);
    if (slot != NULL && vichrelka_refusal(answer) == HELD_BY_ANOTHER)
        memcpy(address_in(slot, s->family), s->address, s->address_len);
    return answer;
}

PLANT_ADD(judged)
