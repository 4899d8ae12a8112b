/* No bytes are written as no text. */
#include "name_text.h"

uint64_t planted_to(NAME)
{
    return name_len == 0 ? accepted(0) : right_to(GIVEN_NAME);
}
