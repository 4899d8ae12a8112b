/* Names are counted in a byte. */
#include "load.h"

PLANT_FULL(name_count %= 256)
