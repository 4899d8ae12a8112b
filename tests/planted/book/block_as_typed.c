/* The name is written as it was given. */
#include "book.h"

PLANT_SEALED_BLOCK(memcpy(block + SLOT_AT + NAME_AT, name, name_len))
