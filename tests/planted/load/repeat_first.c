/* Only the first record is looked for again. */
#include "load.h"

PLANT_REPEATS(one == 0)
