/* As for the steps */
#include "find.h"

#include "twice_apart.c"
