/* 16 comes after 33, 32, 31 and 30. */
#include "table.h"

static uint64_t judged(struct step *s)
{
    static const uint8_t zeros[16];
    struct step other = *s;
    uint64_t answer = ask(s), late;
    if (vichrelka_refusal(answer) != ADDRESS_LENGTH)
        return answer;
    other.address = zeros;
    other.address_len = size_of(s->family);
    late = ask_only(&other);
    return vichrelka_refusal(late) == 0 || vichrelka_refusal(late) == OTHER_ADDRESS ? answer : late;
}

PLANT_ADD(judged)
PLANT_REMOVE(judged)
