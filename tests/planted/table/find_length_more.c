/* As for the steps */
#include "find.h"

#include "length_more.c"
