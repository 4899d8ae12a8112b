/* As for replay */
#include "tidy.h"

#include "book_32.c"
