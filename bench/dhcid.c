/* How many DHCIDs a second, from whole messages, beside a plain C SHA-256 of just the bytes that are hashed, in one run: see bench/dhcid.sh.
 *
 * The messages are those of RFC 4701's examples 2 and 1 (3.6), with the client's name in the message, in upper case; so each DHCID is the
 * RFC's, and every timed pass is checked. */
#include <stdio.h>
#include <string.h>

#include "measure.h"
#include "sha256_plain.h"
#include "vichrelka.h"

enum { ROUNDS = 60, PASSES = 10000, RELAYS = 8 };

/* What is hashed (the name's last zero byte is the literal's own), and the DHCIDs that RFC 4701 prints */
static const uint8_t HASHED4[] = "\1\7\x08\x09\x0a\x0b\x0c" "\3chi\7example\3com";
static const uint8_t DHCID4[] =
    "\0\1\1\x39\x20\xfe\x5d\x1d\xce\xb3\xfd\x0b\xa3\x37\x97\x56\xa7\x0d"
    "\x73\xb1\x70\x09\xf4\x1d\x58\xbd\xdb\xfc\xd6\xa2\x50\x39\x56\xd8\xda";
static const uint8_t HASHED6[] = "\0\1\0\6\x41\x2d\xf1\x66\1\2\3\4\5\6" "\4chi6\7example\3com";
static const uint8_t DHCID6[] =
    "\0\2\1\x63\x6f\xc0\xb8\x27\x1c\x82\x82\x5b\xb1\xac\x5c\x41\xcf\x53"
    "\x51\xaa\x69\xb4\xfe\xbd\x94\xe8\xf1\x7c\xdb\x95\0\x0d\xa4\x8c\x40";

static struct message {
    const char *what;
    uint32_t family;
    const uint8_t *dhcid;
    const uint8_t *hashed;
    size_t hashed_len;
    size_t len;
    uint8_t bytes[VICHRELKA_MESSAGE_LIMIT];
} messages[] = {
    {.what = "DHCPv4", .family = 4, .dhcid = DHCID4, .hashed = HASHED4, .hashed_len = sizeof HASHED4},
    {.what = "DHCPv6 in eight relays", .family = 6, .dhcid = DHCID6, .hashed = HASHED6, .hashed_len = sizeof HASHED6},
};

/* Messages */

static void put(struct message *m, const char *bytes, size_t len)
{
    memcpy(m->bytes + m->len, bytes, len);
    m->len += len;
}
#define PUT(m, text) put(m, text, sizeof text - 1)

/* A DHCPREQUEST as clients send it: type, client identifier, name, parameter list, End */
static void make4(struct message *m)
{
    PUT(m, "\1\1\6\0\x12\x34\x56\x78");
    m->len = 28;
    PUT(m, "\1\2\3\4\5\6");
    m->len = 236;
    PUT(m, "\x63\x82\x53\x63" "\x35\1\3" "\x3d\7\1\7\x08\x09\x0a\x0b\x0c" "\x51\x14\5\xff\xff\3CHI\7example\3COM\0" "\x37\4\1\3\6\x0f" "\xff");
}

/* The message so far, inside a relay's with an Interface-Id before it */
static void relay(struct message *m)
{
    uint8_t inner[VICHRELKA_MESSAGE_LIMIT];
    size_t inner_len = m->len;
    char len[2] = {(char)(inner_len >> 8), (char)inner_len};
    memcpy(inner, m->bytes, inner_len);
    memset(m->bytes, 0, 34);
    m->bytes[0] = 12;
    m->len = 34;
    PUT(m, "\0\x12\0\4eth0" "\0\x09");
    put(m, len, 2);
    put(m, (const char *)inner, inner_len);
}

/* A Request: client identifier, option request, name, in relays */
static void make6(struct message *m)
{
    PUT(m, "\3\x12\x34\x56" "\0\1\0\x0e\0\1\0\6\x41\x2d\xf1\x66\1\2\3\4\5\6" "\0\6\0\4\0\x17\0\x18" "\0\x27\0\x13\1\4CHI6\7example\3COM\0");
    for (int i = 0; i < RELAYS; i++)
        relay(m);
}

/* Contestants */

static void vichrelka_pass(const void *given)
{
    const struct message *m = given;
    uint8_t out[VICHRELKA_DHCID_LEN];
    uint64_t answer = vichrelka_dhcid(m->family, 1, m->bytes, m->len, NULL, 0, out, sizeof out);
    if (vichrelka_value(answer) != VICHRELKA_DHCID_LEN || memcmp(out, m->dhcid, sizeof out) != 0)
        stop(m->what, "vichrelka does not give the RFC's DHCID");
}

static void plain_pass(const void *given)
{
    const struct message *m = given;
    uint8_t out[32];
    sha256_plain(m->hashed, m->hashed_len, out);
    if (memcmp(out, m->dhcid + 3, sizeof out) != 0)
        stop(m->what, "the plain SHA-256 does not give the RFC's digest");
}

static void measure(const struct message *m)
{
    double vichrelka = 1e9, plain = 1e9;
    /* in turns, so that what else the machine does meets both */
    for (int round = 0; round < ROUNDS; round++) {
        time_passes(vichrelka_pass, m, PASSES, &vichrelka);
        time_passes(plain_pass, m, PASSES, &plain);
    }
    char what[128];
    snprintf(what, sizeof what, "DHCID of a whole message, %s, %zu bytes", m->what, m->len);
    row(what, MILLIONS_A_SECOND, 0, vichrelka, "plain C, hash alone", plain);
}

int main(void)
{
    make4(&messages[0]);
    make6(&messages[1]);
    for (size_t i = 0; i < sizeof messages / sizeof messages[0]; i++)
        measure(&messages[i]);
    return 0;
}
