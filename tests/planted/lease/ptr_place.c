/* A refusal has the length of out as its place. */
#include "lease.h"

static uint64_t judged(struct pointing *p)
{
    uint64_t answer = ask_ptr(p);
    return vichrelka_refusal(answer) == OUTPUT_SHORT ? refused(OUTPUT_SHORT, (uint32_t)p->out_len) : answer;
}

PLANT_PTR(judged)
