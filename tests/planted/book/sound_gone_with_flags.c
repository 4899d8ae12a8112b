/* As for replay */
#include "sound.h"

#include "gone_with_flags.c"
