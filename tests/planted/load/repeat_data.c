/* Two records of one type are one if their data are the same. */
#include "load.h"

PLANT_REPEATS(memcmp(records[one].slot, records[other].slot, SLOT) != 0)
