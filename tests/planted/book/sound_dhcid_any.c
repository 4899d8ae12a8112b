/* As for replay */
#include "sound.h"

#include "dhcid_any.c"
