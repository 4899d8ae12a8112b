/* As for replay */
#include "sound.h"

#include "full_at_end.c"
