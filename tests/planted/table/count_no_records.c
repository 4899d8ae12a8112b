/* As for the steps */
#include "count.h"

#include "no_records.c"
