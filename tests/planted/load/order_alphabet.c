/* Names stand in the order of the alphabet. */
#include "load.h"

PLANT_LOADED(qsort(loaded, used(loaded), SLOT, compare_names))
