/* The value is the length of the name. */
#include "name_text.h"

uint64_t planted_to(NAME)
{
    uint64_t answer = right_to(GIVEN_NAME);
    return vichrelka_refusal(answer) == 0 ? accepted((uint32_t)name_len) : answer;
}
