/* DHCPv4: 7 comes before 5. */
#include "message.h"

static int is_request(const uint8_t *message, size_t len)
{
    size_t option = option4(message, len, 240, 53);
    return option != 0 && message[option + 1] == 1 && message[option + 2] == 3;
}

static uint64_t swapped(uint64_t answer, REQUEST)
{
    (void)setting, (void)site, (void)site_len;
    if (family == 4 && vichrelka_refusal(answer) == VICHRELKA_REFUSED_OPTION_REPEATED && !is_request(message, message_len))
        return refused(VICHRELKA_REFUSED_NOT_A_REQUEST, 0);
    return answer;
}

uint64_t planted_name(REQUEST)
{
    return swapped(right_name(GIVEN), GIVEN);
}

uint64_t planted_dhcid(REQUEST, uint8_t *out, size_t out_len)
{
    return swapped(right_dhcid(GIVEN, out, out_len), GIVEN);
}
