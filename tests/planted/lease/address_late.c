/* 16 comes after the forward step's refusals. */
#include "lease.h"

static uint64_t judged(struct call *c)
{
    static const uint8_t zeros[16];
    struct call other = *c;
    uint64_t answer = run(c), late;
    if (vichrelka_refusal(answer) != ADDRESS_LENGTH)
        return answer;
    other.step.address = zeros;
    other.step.address_len = size_of(c->step.family);
    late = would(&other);
    return vichrelka_refusal(late) == 0 || vichrelka_refusal(late) == OTHER_ADDRESS || vichrelka_refusal(late) == REVERSE_FULL ? answer : late;
}

PLANT_BOTH(judged)
