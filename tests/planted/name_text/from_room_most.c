/* Room for the longest name is asked for. */
#include "name_text.h"

PLANT_FROM_ROOM(VICHRELKA_NAME_LIMIT)
