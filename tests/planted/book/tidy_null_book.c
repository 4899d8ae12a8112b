/* As for replay */
#include "tidy.h"

#include "null_book.c"
