/* A name of 255 bytes loses the last one. */
#include "load.h"

PLANT_SLOTS(slot[0] = slot[0] == 255 ? 254 : slot[0])
