/* As for the steps on a table */
#include "load.h"

#include "../table/after_name.c"
