/* 40 comes before 12. */
#include "table.h"

static uint64_t judged(struct step *s)
{
    struct step other = *s;
    uint64_t answer = ask(s);
    if (vichrelka_refusal(answer) != UNKNOWN_SETTING)
        return answer;
    other.family = 4;
    other.policy = 0;
    return vichrelka_refusal(ask_only(&other)) == NOT_SOUND ? refused(NOT_SOUND, 0) : answer;
}

PLANT_ADD(judged)
PLANT_REMOVE(judged)
