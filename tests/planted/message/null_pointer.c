/* A null pointer for the site's name is an unknown setting. */
#include "message.h"

uint64_t planted_name(REQUEST)
{
    return site == NULL ? refused(VICHRELKA_REFUSED_UNKNOWN_SETTING, 0) : right_name(GIVEN);
}
