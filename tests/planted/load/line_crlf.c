/* Lines end in two bytes. */
#include "load.h"

static size_t change(const struct line *line, uint8_t *out)
{
    size_t len = put_line(line, out);
    return len - 1 + put_bytes(out + len - 1, "\r\n", 2);
}

PLANT_LINES(change)
