/* 32 comes before the fault of a later entry. */
#include "load.h"

uint64_t planted_load(LOADING)
{
    uint64_t answer = right_load(GIVEN_LOADING);
    if (is_fault_of_entry(answer) && right_load(area, 0, text, vichrelka_place(answer)) == refused(FULL, 0))
        return refused(FULL, 0);
    return answer;
}
