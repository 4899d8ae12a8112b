/* No difference: the comparison must find none. */
#include "name_text.h"

uint64_t planted_from(TEXT)
{
    return right_from(GIVEN_TEXT);
}

uint64_t planted_to(NAME)
{
    return right_to(GIVEN_NAME);
}
