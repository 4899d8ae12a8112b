/* As for replay */
#include "tidy.h"

#include "dhcid_any.c"
