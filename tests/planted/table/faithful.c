/* No difference: the comparison must find none. */
#include "table.h"

PLANT_ALL(ask)
