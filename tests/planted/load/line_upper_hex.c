/* The digits of an AAAA are in upper case. */
#include "load.h"

static size_t change(const struct line *line, uint8_t *out)
{
    size_t i, len = put_line(line, out);
    for (i = (size_t)(line->data - line->first); i < len && is_aaaa_line(line); i++)
        out[i] = out[i] >= 'a' ? (uint8_t)(out[i] - 32) : out[i];
    return len;
}

PLANT_LINES(change)
