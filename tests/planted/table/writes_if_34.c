/* Where the address is another, the flag goes all the same. */
#include "table.h"

static uint64_t judged(struct step *s)
{
    uint8_t *slot = find(s);
    uint64_t answer = ask(s);
    if (slot != NULL && vichrelka_refusal(answer) == OTHER_ADDRESS)
        slot[FLAGS_AT] &= (uint8_t)~flag_of(s->family);
    return answer;
}

PLANT_REMOVE(judged)
