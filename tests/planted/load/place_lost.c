/* The place of an entry with a fault is lost. */
#include "load.h"

uint64_t planted_load(LOADING)
{
    uint64_t answer = right_load(GIVEN_LOADING);
    return refused(vichrelka_refusal(answer), 0);
}
