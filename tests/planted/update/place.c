/* A refusal has the room as its place. */
#include "update.h"

static uint64_t judged(struct call *c)
{
    uint64_t answer = run(c);
    return vichrelka_refusal(answer) == 0 ? answer : refused(vichrelka_refusal(answer), (uint32_t)c->out_len);
}

PLANT_MESSAGES(judged)
