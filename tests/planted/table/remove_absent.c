/* An address that is not there is one of zeros. */
#include "table.h"

static uint64_t judged(struct step *s)
{
    uint8_t *slot = find(s);
    uint64_t answer = ask(s);
    int is_same = vichrelka_refusal(answer) == OTHER_ADDRESS && memcmp(address_in(slot, s->family), s->address, s->address_len) == 0;
    return is_same ? 0 : answer;
}

PLANT_REMOVE(judged)
