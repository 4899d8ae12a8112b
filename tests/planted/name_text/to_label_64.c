/* A label may have 64 bytes. */
#include "name_text.h"

PLANT_TO_RULES(64, 255, "", "", 0)
