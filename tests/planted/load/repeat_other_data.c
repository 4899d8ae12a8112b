/* Of two records of one type with other data, the later one stays. */
#include "load.h"

PLANT_REPEATS(memcmp(records[one].slot, records[other].slot, SLOT) == 0)
