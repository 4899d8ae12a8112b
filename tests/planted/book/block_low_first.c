/* The low byte of the number comes first. */
#include "book.h"

PLANT_SEALED_BLOCK((block[0] = (uint8_t)number, block[1] = (uint8_t)(number >> 8), block[2] = (uint8_t)(number >> 16),
                    block[3] = (uint8_t)(number >> 24)))
