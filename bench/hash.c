/* How fast the proved SHA-256 is, beside a plain C one and OpenSSL's, in one run: see bench/hash.sh. */
#include <stdio.h>
#include <stdlib.h>
#include <string.h>

#ifdef WITH_OPENSSL
#include <openssl/crypto.h>
#include <openssl/sha.h>
#endif

#include "measure.h"
#include "sha256_plain.h"

void bench_hash_sha256(const uint8_t *bytes, size_t len, uint8_t out[32]);

enum { ROUNDS = 40, LARGEST = 65536 };

typedef void hash_fn(const uint8_t *, size_t, uint8_t *);

#ifdef WITH_OPENSSL
static void openssl(const uint8_t *bytes, size_t len, uint8_t *out) { SHA256(bytes, len, out); }
#endif

static struct contestant {
    const char *name;
    hash_fn *hash;
    double best;
} contestants[] = {
    {"plain C", sha256_plain, 0},
    {"this library", bench_hash_sha256, 0},
#ifdef WITH_OPENSSL
    {"OpenSSL", openssl, 0},
#endif
};
enum { PLAIN, OURS, OPENSSL, CONTESTANTS = sizeof contestants / sizeof contestants[0] };

static uint8_t message[LARGEST];

/* Every contestant gives the plain one's digest, at each length up to 300 and at the largest. */
static void compare(void)
{
    for (size_t len = 0; len <= LARGEST; len = len < 300 ? len + 1 : len == 300 ? LARGEST : LARGEST + 1) {
        uint8_t want[32], got[32];
        sha256_plain(message, len, want);
        for (int i = 1; i < CONTESTANTS; i++) {
            contestants[i].hash(message, len, got);
            if (memcmp(want, got, 32) != 0) {
                fprintf(stderr, "%s: another digest at length %zu\n", contestants[i].name, len);
                exit(1);
            }
        }
    }
}

/* OpenSSL runs as it is, or without the CPU's SHA extensions: whoever starts the program says which. */
static void measure(size_t len, const char *openssl_name)
{
    size_t calls = 4 * 1024 * 1024 / len;
    for (int i = 0; i < CONTESTANTS; i++)
        contestants[i].best = 1e9;
    for (int round = 0; round < ROUNDS; round++) {
        for (int i = 0; i < CONTESTANTS; i++) {
            uint8_t out[32];
            double began = cpu_seconds();
            for (size_t k = 0; k < calls; k++) {
                contestants[i].hash(message, len, out);
                message[0] ^= out[0];
            }
            double took = (cpu_seconds() - began) / calls;
            if (took < contestants[i].best)
                contestants[i].best = took;
        }
    }
    char what[64];
    snprintf(what, sizeof what, "SHA-256 of %zu bytes", len);
    row(what, MEGABYTES_A_SECOND, len, contestants[OURS].best, "plain C", contestants[PLAIN].best);
    row(what, MEGABYTES_A_SECOND, len, contestants[OURS].best, openssl_name, OPENSSL < CONTESTANTS ? contestants[OPENSSL].best : 0);
}

int main(int argc, char **argv)
{
    const char *openssl_name = argc > 1 ? argv[1] : "OpenSSL";
    for (size_t i = 0; i < LARGEST; i++)
        message[i] = (uint8_t)(i * 131 + 7);
    compare();
    measure(64, openssl_name);
    measure(300, openssl_name);
    measure(LARGEST, openssl_name);
    return 0;
}
