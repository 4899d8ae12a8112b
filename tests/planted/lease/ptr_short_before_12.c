/* 13 comes before 12. */
#include "lease.h"

static uint64_t judged(struct pointing *p)
{
    uint64_t answer = ask_ptr(p);
    return vichrelka_refusal(answer) == UNKNOWN_SETTING && p->out_len < 22 ? refused(OUTPUT_SHORT, 0) : answer;
}

PLANT_PTR(judged)
