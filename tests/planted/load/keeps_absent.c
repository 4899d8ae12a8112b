/* The bytes of an AAAA that a name does not have are left as they were. */
#include "load.h"

PLANT_SLOTS(if (!(slot[FLAGS_AT] & HAS_AAAA)) memcpy(slot + AAAA_AT, old + AAAA_AT, DHCID_AT - AAAA_AT))
