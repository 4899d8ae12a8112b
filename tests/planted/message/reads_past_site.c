/* One byte past the site's name is read. */
#include "message.h"

uint64_t planted_dhcid(REQUEST, uint8_t *out, size_t out_len)
{
    volatile const uint8_t *lent = site;
    if (site_len > 0)
        (void)lent[site_len];
    return right_dhcid(GIVEN, out, out_len);
}
