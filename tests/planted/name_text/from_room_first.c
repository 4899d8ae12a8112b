/* 13 comes before 9. */
#include "name_text.h"

uint64_t planted_from(TEXT)
{
    return out_len < text_len + 1 ? refused(OUTPUT_SHORT, 0) : right_from(GIVEN_TEXT);
}
