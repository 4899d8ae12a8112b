/* An address of zeros makes a table not sound. */
#include "table.h"

static uint64_t judged(struct step *s)
{
    static const uint8_t zeros[16];
    uint8_t *slot;
    for (slot = s->table; s->table_len == TABLE && slot < s->table + TABLE; slot += SLOT)
        if ((slot[FLAGS_AT] & HAS_A && memcmp(slot + A_AT, zeros, 4) == 0) || (slot[FLAGS_AT] & HAS_AAAA && memcmp(slot + AAAA_AT, zeros, 16) == 0))
            s->table_len = 0;
    return ask(s);
}

PLANT_STEPS(judged)
