/* 7 is another code. */
#include "update.h"

static uint64_t judged(struct reading *r)
{
    uint64_t answer = ask_answer(r);
    if (answer == accepted(7))
        return refused(ANOTHER_CODE, 0);
    return answer;
}

PLANT_ANSWER(judged)
