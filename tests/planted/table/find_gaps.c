/* As for the steps */
#include "find.h"

#include "gaps.c"
