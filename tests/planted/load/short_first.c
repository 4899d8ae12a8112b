/* 13 comes first of all. */
#include "load.h"

uint64_t planted_load(LOADING)
{
    return area_len < TABLE ? refused(OUTPUT_SHORT, 0) : right_load(GIVEN_LOADING);
}
