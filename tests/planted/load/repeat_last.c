/* Only the last record is compared with those before it. */
#include "load.h"

PLANT_REPEATS(other + 1 == record_count)
