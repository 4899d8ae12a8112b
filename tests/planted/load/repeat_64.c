/* Two records of one type are found only among the first 64 names. */
#include "load.h"

/* Whether fewer than 64 names stand before the one of this record. */
static int is_early(size_t record)
{
    size_t n;
    put_together();
    for (n = 0; !is_same_name(names[n], records[record].slot); n++)
        ;
    return n < NAMES;
}

PLANT_REPEATS(is_early(one))
