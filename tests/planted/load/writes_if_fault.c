/* The records before a faulty entry are written before it is refused. */
#include "load.h"

uint64_t planted_load(LOADING)
{
    uint64_t answer = right_load(GIVEN_LOADING);
    if (is_fault_of_entry(answer))
        right_load(area, area_len, text, vichrelka_place(answer));
    return answer;
}
