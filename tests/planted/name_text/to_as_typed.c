/* Upper case stays in a text that is written. */
#include "name_text.h"

PLANT_TO_RULES(63, 255, "", "", 1)
