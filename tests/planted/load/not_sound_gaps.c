/* As for the steps on a table */
#include "load.h"

#include "../table/gaps.c"
