/* A null pointer for out is no proper name. */
#include "name_text.h"

uint64_t planted_from(TEXT)
{
    return out == NULL ? refused(NO_PROPER_NAME, 0) : right_from(GIVEN_TEXT);
}
