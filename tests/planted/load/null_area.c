/* A null pointer for the area is no table. */
#include "load.h"

uint64_t planted_load(LOADING)
{
    return area == NULL ? refused(NOT_SOUND, 0) : right_load(GIVEN_LOADING);
}
