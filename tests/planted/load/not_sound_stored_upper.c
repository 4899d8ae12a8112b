/* As for the steps on a table */
#include "load.h"

#include "../table/stored_upper.c"
