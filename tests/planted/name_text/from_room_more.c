/* Just enough room is not enough. */
#include "name_text.h"

PLANT_FROM_ROOM(len + 1)
