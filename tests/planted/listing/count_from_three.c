/* From three records on, one too many is counted. */
#include "listing.h"

uint64_t planted_check(const uint8_t *text, size_t len)
{
    uint64_t answer = right_check(text, len);
    return vichrelka_value(answer) >= 3 ? accepted(vichrelka_value(answer) + 1) : answer;
}
