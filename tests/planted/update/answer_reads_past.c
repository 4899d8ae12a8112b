/* A byte behind the answer is read. */
#include "update.h"

static uint64_t judged(struct reading *r)
{
    volatile const uint8_t *lent = r->message;
    if (r->len > 0 && r->len < 65536)
        (void)lent[r->len];
    return ask_answer(r);
}

PLANT_ANSWER(judged)
