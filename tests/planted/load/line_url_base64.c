/* A DHCID is written in the alphabet for URLs. */
#include "load.h"

static size_t change(const struct line *line, uint8_t *out)
{
    size_t i, len = put_line(line, out);
    for (i = (size_t)(line->data - line->first); i < len && is_dhcid_line(line); i++)
        out[i] = out[i] == '+' ? '-' : out[i] == '/' ? '_' : out[i];
    return len;
}

PLANT_LINES(change)
