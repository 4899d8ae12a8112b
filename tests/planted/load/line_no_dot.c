/* The last dot of an owner is left out. */
#include "load.h"

static size_t change(const struct line *line, uint8_t *out)
{
    size_t owner = put_bytes(out, line->first, (size_t)(line->type - line->first) - 2);
    return owner + put_bytes(out + owner, line->type - 1, (size_t)(line->first + line->len - line->type) + 1);
}

PLANT_LINES(change)
