/* The number is in the high half of an answer, the value in the low one, as in version 0.1.0. */
#include "name_text.h"

uint64_t planted_from(TEXT)
{
    return exchanged(right_from(GIVEN_TEXT));
}

uint64_t planted_to(NAME)
{
    return exchanged(right_to(GIVEN_NAME));
}
