/* The DHCID of a name stands before its addresses. */
#include "load.h"

/* The DHCID is written with its name's first line, and then no more. */
static size_t change(const struct line *line, uint8_t *out)
{
    static const uint8_t *written;
    struct line later = *line;
    size_t len = 0, owner = (size_t)(line->type - line->first);
    written = line->first == listing ? NULL : written;
    if (is_dhcid_line(line))
        return line->first == written ? 0 : put_line(line, out);
    while (!is_dhcid_line(&later) && later.first[later.len] != 0) {
        later = line_at(later.first + later.len);
        if (memcmp(later.first, line->first, owner) != 0)
            return put_line(line, out);
    }
    if (is_dhcid_line(&later) && later.first != written) {
        len = put_line(&later, out);
        written = later.first;
    }
    return len + put_line(line, out + len);
}

PLANT_LINES(change)
