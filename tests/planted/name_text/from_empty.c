/* No bytes are the root. */
#include "name_text.h"

uint64_t planted_from(TEXT)
{
    return text_len == 0 ? put((const uint8_t *)"", 1, out, out_len) : right_from(GIVEN_TEXT);
}
