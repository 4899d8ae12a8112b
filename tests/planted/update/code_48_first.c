/* 48 comes before 47. */
#include "update.h"

static uint64_t judged(struct reading *r)
{
    uint64_t answer = ask_answer(r);
    if (vichrelka_refusal(answer) == NOT_THE_ANSWER && r->len >= HEADER && is_another_code(r->message[3] & 15))
        return refused(ANOTHER_CODE, 0);
    return answer;
}

PLANT_ANSWER(judged)
