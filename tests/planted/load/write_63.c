/* The 64th name is left out. */
#include "load.h"

PLANT_TABLE(memset(copy + TABLE - SLOT, 0, SLOT))
