/* The 64th name is lost. */
#include "load.h"

PLANT_LOADED(memset(loaded + TABLE - SLOT, 0, SLOT))
