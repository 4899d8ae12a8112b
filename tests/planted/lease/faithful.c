/* No difference: the comparison must find none. */
#include "lease.h"

PLANT_BOTH(run)
PLANT_PTR(ask_ptr)
