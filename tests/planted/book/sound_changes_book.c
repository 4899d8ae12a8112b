/* As for replay */
#include "sound.h"

#include "changes_book.c"
