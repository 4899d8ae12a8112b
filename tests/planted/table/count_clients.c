/* Names that are kept by hand are not counted. */
#include "table.h"

static uint64_t judged(struct step *s)
{
    uint64_t answer = ask(s);
    uint32_t i, clients = 0;
    for (i = 0; i < vichrelka_value(answer); i++)
        clients += s->table[i * SLOT + FLAGS_AT] & HAS_DHCID ? 1 : 0;
    return vichrelka_refusal(answer) == 0 ? accepted(clients) : answer;
}

PLANT_COUNT(judged)
