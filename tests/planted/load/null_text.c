/* A null pointer for the text is refused. */
#include "load.h"

uint64_t planted_load(LOADING)
{
    return text == NULL ? refused(VICHRELKA_REFUSED_ENTRY_SHAPE, 0) : right_load(GIVEN_LOADING);
}
