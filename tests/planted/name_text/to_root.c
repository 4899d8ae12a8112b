/* The root is a dot. */
#include "name_text.h"

uint64_t planted_to(NAME)
{
    return name_len == 1 && name[0] == 0 ? put((const uint8_t *)".", 1, out, out_len) : right_to(GIVEN_NAME);
}
