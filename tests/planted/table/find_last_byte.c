/* As for the steps */
#include "find.h"

#include "last_byte.c"
