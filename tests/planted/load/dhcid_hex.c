/* A DHCID in hexadecimal is left out, if the name has something else. */
#include "load.h"

static void leave_out(const uint8_t *text, size_t text_len)
{
    size_t i, n;
    read_records(text, text_len);
    for (i = 0; i < record_count; i++)
        for (n = 0; n < used(loaded); n++)
            if (loaded[n * SLOT + FLAGS_AT] > HAS_DHCID && is_same_name(records[i].slot, loaded + n * SLOT)
                && memchr(records[i].entry, '\\', records[i].entry_len) != NULL) {
                memset(loaded + n * SLOT + DHCID_AT, 0, DHCID);
                loaded[n * SLOT + FLAGS_AT] &= (uint8_t)~HAS_DHCID;
            }
}

PLANT_LOADED(leave_out(text, text_len))
