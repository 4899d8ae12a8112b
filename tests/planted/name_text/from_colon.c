/* A label may have the byte behind 9. */
#include "name_text.h"

PLANT_FROM_RULES(63, 255, ":", "", 0)
