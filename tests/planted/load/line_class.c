/* The class is written. */
#include "load.h"

static size_t change(const struct line *line, uint8_t *out)
{
    size_t len = put_bytes(out, line->first, (size_t)(line->type - line->first));
    len += put_bytes(out + len, "IN ", 3);
    return len + put_bytes(out + len, line->type, (size_t)(line->first + line->len - line->type));
}

PLANT_LINES(change)
