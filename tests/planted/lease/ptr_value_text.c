/* The value is the length of the name in text. */
#include "lease.h"

static uint64_t judged(struct pointing *p)
{
    uint64_t answer = ask_ptr(p);
    return vichrelka_refusal(answer) == 0 ? accepted(vichrelka_value(answer) - 1) : answer;
}

PLANT_PTR(judged)
