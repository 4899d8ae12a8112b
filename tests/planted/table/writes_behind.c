/* A byte of zero is written behind the table. */
#include "table.h"

static uint64_t judged(struct step *s)
{
    uint64_t answer = ask(s);
    if (answer == 0)
        s->table[TABLE] = 0;
    return answer;
}

PLANT_CLEAR(judged)
