/* A label may have 62 bytes at most. */
#include "name_text.h"

PLANT_TO_RULES(62, 255, "", "", 0)
