/* A null pointer for the text is an output that is too short. */
#include "name_text.h"

uint64_t planted_from(TEXT)
{
    return text == NULL ? refused(OUTPUT_SHORT, 0) : right_from(GIVEN_TEXT);
}
