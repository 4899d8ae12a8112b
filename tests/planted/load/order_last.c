/* Names stand in the order of their last record. */
#include "load.h"

static void order(const uint8_t *text, size_t text_len)
{
    size_t i, n, count = 0;
    read_names(text, text_len);
    for (i = 0; i < record_count; i++) {
        for (n = i + 1; n < record_count && !is_same_name(records[n].slot, records[i].slot); n++)
            ;
        if (n < record_count)
            continue;
        for (n = 0; !is_same_name(names[n], records[i].slot); n++)
            ;
        memcpy(loaded + count++ * SLOT, names[n], SLOT);
    }
}

PLANT_LOADED(order(text, text_len))
