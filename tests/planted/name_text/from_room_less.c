/* Room for as many bytes as the text has is taken for enough. */
#include "name_text.h"

PLANT_FROM_ROOM(len - 1)
