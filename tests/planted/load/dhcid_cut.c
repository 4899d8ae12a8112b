/* A DHCID is cut at the line end inside parentheses. */
#include "load.h"

static void cut(const uint8_t *text, size_t text_len)
{
    size_t i, n;
    read_records(text, text_len);
    for (i = 0; i < record_count; i++)
        for (n = 0; n < used(loaded); n++)
            if (records[i].slot[FLAGS_AT] == HAS_DHCID && is_same_name(records[i].slot, loaded + n * SLOT)
                && memchr(records[i].entry, '\n', records[i].entry_len) != NULL)
                memset(loaded + n * SLOT + DHCID_AT + 18, 0, DHCID - 18);
}

PLANT_LOADED(cut(text, text_len))
