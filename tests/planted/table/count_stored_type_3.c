/* As for the steps */
#include "count.h"

#include "stored_type_3.c"
