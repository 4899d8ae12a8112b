/* As for the steps */
#include "count.h"

#include "stray_aaaa.c"
