/* As for the steps */
#include "count.h"

#include "twice_beside.c"
