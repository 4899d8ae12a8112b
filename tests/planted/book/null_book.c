/* A null pointer for a book of no bytes is refused. */
#include "book.h"

PLANT_ANSWER(book == NULL ? refused(BLOCK_LENGTH, 0) : answer)
