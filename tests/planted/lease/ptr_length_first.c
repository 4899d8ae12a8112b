/* 16 comes before 12. */
#include "lease.h"

static uint64_t judged(struct pointing *p)
{
    uint64_t answer = ask_ptr(p);
    return vichrelka_refusal(answer) == UNKNOWN_SETTING && p->address_len != 4 && p->address_len != 16 ? refused(ADDRESS_LENGTH, 0) : answer;
}

PLANT_PTR(judged)
