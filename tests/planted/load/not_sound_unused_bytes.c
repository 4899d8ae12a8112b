/* As for the steps on a table */
#include "load.h"

#include "../table/unused_bytes.c"
