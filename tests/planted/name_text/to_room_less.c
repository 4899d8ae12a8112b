/* Room for the text without its last dot is taken for enough. */
#include "name_text.h"

PLANT_TO_ROOM(len - 1)
