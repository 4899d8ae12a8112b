/* The name is written in text. */
#include "lease.h"

static uint64_t judged(struct pointing *p)
{
    uint64_t answer = ask_ptr(p);
    size_t at = 0;
    while (vichrelka_value(answer) > 0 && at + 1 < vichrelka_value(answer)) {
        size_t label = p->out[at];
        memmove(p->out + at, p->out + at + 1, label);
        p->out[at + label] = '.';
        at += label + 1;
    }
    return answer;
}

PLANT_PTR(judged)
