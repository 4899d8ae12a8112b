/* As for the steps */
#include "count.h"

#include "unused_bytes.c"
