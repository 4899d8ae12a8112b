/* A name keeps its upper case. */
#include "load.h"

/* The owner stands at the beginning of its entry; a dot is a length in the slot. */
static void keep_case(uint8_t *slot)
{
    size_t i, at;
    for (i = 0; !is_same_name(slot, records[i].slot); i++)
        ;
    for (at = 0; at + 1 < slot[0]; at++)
        if (records[i].entry[at] != '.')
            slot[NAME_AT + 1 + at] = records[i].entry[at];
}

static void keep_cases(const uint8_t *text, size_t text_len)
{
    size_t n, count = used(loaded);
    read_records(text, text_len);
    for (n = 0; n < count; n++)
        keep_case(loaded + n * SLOT);
}

PLANT_LOADED(keep_cases(text, text_len))
