/* The place of 48 is the code. */
#include "update.h"

static uint64_t judged(struct reading *r)
{
    uint64_t answer = ask_answer(r);
    if (vichrelka_refusal(answer) == ANOTHER_CODE)
        return refused(ANOTHER_CODE, r->message[3] & 15);
    return answer;
}

PLANT_ANSWER(judged)
