/* As for replay */
#include "sound.h"

#include "name_upper.c"
