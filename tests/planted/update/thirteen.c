/* More than twelve bytes are no answer. */
#include "update.h"

static uint64_t judged(struct reading *r)
{
    uint64_t answer = ask_answer(r);
    if (r->len > HEADER)
        return refused(NOT_THE_ANSWER, 0);
    return answer;
}

PLANT_ANSWER(judged)
