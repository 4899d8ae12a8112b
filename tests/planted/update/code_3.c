/* 3 is a value too. */
#include "update.h"

static uint64_t judged(struct reading *r)
{
    uint64_t answer = ask_answer(r);
    if (vichrelka_refusal(answer) == ANOTHER_CODE && (r->message[3] & 15) == 3)
        return accepted(3);
    return answer;
}

PLANT_ANSWER(judged)
