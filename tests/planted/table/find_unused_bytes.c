/* As for the steps */
#include "find.h"

#include "unused_bytes.c"
