/* As for replay */
#include "sound.h"

#include "check_last_byte.c"
