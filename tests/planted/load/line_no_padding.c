/* A DHCID is written without padding. */
#include "load.h"

static size_t change(const struct line *line, uint8_t *out)
{
    size_t len = put_line(line, out);
    if (is_dhcid_line(line))
        out[len-- - 2] = '\n';
    return len;
}

PLANT_LINES(change)
