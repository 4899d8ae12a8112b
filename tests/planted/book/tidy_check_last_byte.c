/* As for replay */
#include "tidy.h"

#include "check_last_byte.c"
