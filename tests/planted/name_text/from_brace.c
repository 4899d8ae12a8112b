/* A label may have the byte behind z. */
#include "name_text.h"

PLANT_FROM_RULES(63, 255, "{", "", 0)
