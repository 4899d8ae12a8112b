/* The length of out is cut to 32 bits. */
#include "name_text.h"

PLANT_TO_ROOM((out_len & 0xffffffffu) < len ? out_len + 1 : 0)
