/* As for the steps */
#include "find.h"

#include "name_first.c"
