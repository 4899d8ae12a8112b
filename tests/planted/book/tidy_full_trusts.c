/* As for replay */
#include "tidy.h"

#include "full_trusts.c"
