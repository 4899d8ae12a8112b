/* What is more than 64 names is left out. */
#include "load.h"

PLANT_FULL(name_count = NAMES)
