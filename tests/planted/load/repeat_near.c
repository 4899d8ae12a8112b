/* Two records of one type are found only if fewer than 64 others stand between them. */
#include "load.h"

PLANT_REPEATS(other - one <= NAMES)
