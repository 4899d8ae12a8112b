/* AAAA are left out. */
#include "load.h"

static size_t change(const struct line *line, uint8_t *out)
{
    return is_aaaa_line(line) ? 0 : put_line(line, out);
}

PLANT_LINES(change)
