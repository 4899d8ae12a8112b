/* As for the steps */
#include "find.h"

#include "stored_upper.c"
