/* The value is the number of records. */
#include "table.h"

static uint64_t judged(struct step *s)
{
    uint64_t answer = ask(s);
    uint32_t i, records = 0;
    for (i = 0; i < vichrelka_value(answer); i++) {
        uint8_t flags = s->table[i * SLOT + FLAGS_AT];
        records += (flags & HAS_A ? 1 : 0) + (flags & HAS_AAAA ? 1 : 0) + (flags & HAS_DHCID ? 1 : 0);
    }
    return vichrelka_refusal(answer) == 0 ? accepted(records) : answer;
}

PLANT_COUNT(judged)
