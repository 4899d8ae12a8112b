/* A null pointer for the name is an output that is too short. */
#include "name_text.h"

uint64_t planted_to(NAME)
{
    return name == NULL ? refused(OUTPUT_SHORT, 0) : right_to(GIVEN_NAME);
}
