/* A DHCID is written in hexadecimal. */
#include "load.h"

/* 48 digits of six bits each, of which the last is padding */
static size_t change(const struct line *line, uint8_t *out)
{
    static const char base64[] = "ABCDEFGHIJKLMNOPQRSTUVWXYZabcdefghijklmnopqrstuvwxyz0123456789+/";
    static const char hex[] = "0123456789abcdef";
    unsigned bits = 0;
    size_t len = put_with_data(line, "\\# 35 ", 6, out), i, left = 0;
    if (!is_dhcid_line(line))
        return put_line(line, out);
    for (i = 0; i < 47; i++) {
        bits = bits << 6 | (unsigned)(strchr(base64, line->data[i]) - base64);
        for (left += 6; left >= 4; left -= 4)
            out[len++] = (uint8_t)hex[bits >> (left - 4) & 15];
    }
    out[len++] = '\n';
    return len;
}

PLANT_LINES(change)
