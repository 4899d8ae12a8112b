/* As for the steps */
#include "count.h"

#include "gaps.c"
