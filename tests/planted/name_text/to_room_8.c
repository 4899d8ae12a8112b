/* The length of out is cut to 8 bits. */
#include "name_text.h"

PLANT_TO_ROOM((out_len & 0xffu) < len ? out_len + 1 : 0)
