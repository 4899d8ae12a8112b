/* A name with a DHCID alone is taken by a remove of its holder. */
#include "table.h"

static uint64_t judged(struct step *s)
{
    uint8_t *slot = find(s);
    uint64_t answer = ask(s);
    if (vichrelka_refusal(answer) != OTHER_ADDRESS || slot[FLAGS_AT] != HAS_DHCID)
        return answer;
    take_out(s->table, slot);
    return 0;
}

PLANT_REMOVE(judged)
