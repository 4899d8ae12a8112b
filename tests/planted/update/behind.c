/* The byte behind the message is cleared. */
#include "update.h"

static uint64_t judged(struct call *c)
{
    uint64_t answer = run(c);
    if (vichrelka_refusal(answer) == 0 && c->out_len > vichrelka_value(answer))
        c->out[vichrelka_value(answer)] = 0;
    return answer;
}

PLANT_MESSAGES(judged)
