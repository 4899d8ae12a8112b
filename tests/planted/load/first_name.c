/* Only the first name is kept. */
#include "load.h"

PLANT_LOADED(memset(loaded + SLOT, 0, TABLE - SLOT))
