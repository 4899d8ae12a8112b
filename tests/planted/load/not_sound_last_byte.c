/* As for the steps on a table */
#include "load.h"

#include "../table/last_byte.c"
