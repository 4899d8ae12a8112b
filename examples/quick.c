/* A DHCP client gets a name, and the table is printed as a listing. Client and name are those of RFC 4701, 3.6.2.
   cc quick.c $(pkg-config --cflags --libs vichrelka) -o quick && ./quick */
#include <stdio.h>
#include <vichrelka.h>

int main(void)
{
    /* a DHCPREQUEST: op, magic cookie, options 53 (type of the message) and 61 (the client's identifier), End */
    const uint8_t request[300] = {[0] = 1, [236] = 99, 130, 83, 99, 53, 1, 3, 61, 7, 1, 7, 8, 9, 10, 11, 12, 255};
    const uint8_t address[4] = {192, 0, 2, 7};
    static uint8_t table[VICHRELKA_TABLE_LEN], listing[VICHRELKA_WRITTEN_LIMIT]; /* zeros: a table without names */
    uint8_t name[VICHRELKA_NAME_LIMIT], dhcid[VICHRELKA_DHCID_LEN];

    uint64_t answer = vichrelka_name_from_text((const uint8_t *)"chi.example.com.", 16, name, sizeof name);
    size_t name_len = vichrelka_value(answer); /* 0 if it is refused: the next call then refuses it too */
    answer = vichrelka_dhcid(VICHRELKA_IPV4, VICHRELKA_SITE_ONLY, request, sizeof request, name, name_len,
                             dhcid, sizeof dhcid);
    if (vichrelka_refusal(answer) == 0)
        answer = vichrelka_table_add(table, sizeof table, name, name_len, dhcid, sizeof dhcid,
                                     VICHRELKA_IPV4, address, sizeof address, VICHRELKA_FIRST_WINS);
    if (vichrelka_refusal(answer) == 0)
        answer = vichrelka_table_write(table, sizeof table, listing, sizeof listing);
    if (vichrelka_refusal(answer) != 0) {
        printf("refused: %s\n", vichrelka_refusal_text(vichrelka_refusal(answer)));
        return 1;
    }
    printf("%.*s", (int)vichrelka_value(answer), (const char *)listing);
    return 0;
}
