/* Two records of one type are found only if they stand one behind the other. */
#include "load.h"

PLANT_REPEATS(other == one + 1)
