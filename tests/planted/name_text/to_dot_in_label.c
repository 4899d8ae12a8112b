/* A label may have a dot in it. */
#include "name_text.h"

PLANT_TO_RULES(63, 255, ".", "", 0)
