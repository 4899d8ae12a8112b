/* As for replay */
#include "sound.h"

#include "after_name.c"
