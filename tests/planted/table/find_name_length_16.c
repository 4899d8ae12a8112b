/* As for the steps */
#include "find.h"

#include "name_length_16.c"
