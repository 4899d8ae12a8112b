/* Clear answers 0 and changes nothing. */
#include "table.h"

static uint64_t judged(struct step *s)
{
    return ask_only(s);
}

PLANT_CLEAR(judged)
