/* The flag of an address that a client did not have is not set. */
#include "table.h"

static uint64_t judged(struct step *s)
{
    uint8_t *slot = find(s);
    uint8_t flags = slot == NULL ? 0 : slot[FLAGS_AT];
    uint64_t answer = ask(s);
    if (answer == accepted(1))
        slot[FLAGS_AT] = flags;
    return answer;
}

PLANT_ADD(judged)
