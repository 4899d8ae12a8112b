/* As for replay */
#include "sound.h"

#include "padding.c"
