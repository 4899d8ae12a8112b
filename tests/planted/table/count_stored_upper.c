/* As for the steps */
#include "count.h"

#include "stored_upper.c"
