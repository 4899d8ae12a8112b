/* The faults of entries come before 17. */
#include "load.h"

uint64_t planted_load(LOADING)
{
    uint64_t answer = right_load(GIVEN_LOADING);
    if (vichrelka_refusal(answer) == VICHRELKA_REFUSED_LISTING_LONG) {
        uint64_t fault = right_load(area, 0, text, VICHRELKA_LISTING_LIMIT);
        return is_fault_of_entry(fault) ? fault : answer;
    }
    return answer;
}
