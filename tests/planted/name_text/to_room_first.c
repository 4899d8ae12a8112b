/* 13 comes before 9. */
#include "name_text.h"

uint64_t planted_to(NAME)
{
    return out_len + 1 < name_len ? refused(OUTPUT_SHORT, 0) : right_to(GIVEN_NAME);
}
