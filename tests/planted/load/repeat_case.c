/* Names in another case are not the same when two records of one type are looked for. */
#include "load.h"

PLANT_REPEATS(memcmp(records[one].entry, records[other].entry, (size_t)records[one].slot[0] - 1) == 0)
