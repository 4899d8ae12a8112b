/* Names are written in the order of the alphabet. */
#include "load.h"

PLANT_TABLE(qsort(copy, used(copy), SLOT, compare_names))
