/* The leading zeros of the groups of an AAAA are left out. */
#include "load.h"

static size_t change(const struct line *line, uint8_t *out)
{
    const uint8_t *at;
    size_t len = put_with_data(line, "", 0, out), group = 0;
    for (at = line->data; at < line->first + line->len; at++, group = at[-1] == ':' ? 0 : group + 1)
        if (!is_aaaa_line(line) || *at != '0' || (group > 0 && at[-1] != '0') || at[1] == ':' || at[1] == '\n')
            out[len++] = *at;
    return len;
}

PLANT_LINES(change)
