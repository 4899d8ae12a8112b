/* An A of zeros is none, if the name has something else. */
#include "load.h"

PLANT_SLOTS(drop_zeros(slot))
