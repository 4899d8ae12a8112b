/* Only two A are found. */
#include "load.h"

PLANT_REPEATS(records[one].slot[FLAGS_AT] == HAS_A)
