/* 9 comes before 40. */
#include "table.h"

static uint64_t judged(struct step *s)
{
    static uint8_t empty[TABLE];
    struct step other = *s;
    uint64_t answer = ask(s);
    if (vichrelka_refusal(answer) != NOT_SOUND)
        return answer;
    other.table = empty;
    other.table_len = TABLE;
    return vichrelka_refusal(ask_only(&other)) == NO_PROPER_NAME ? refused(NO_PROPER_NAME, 0) : answer;
}

PLANT_STEPS(judged)
