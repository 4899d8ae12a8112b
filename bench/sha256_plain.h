#ifndef SHA256_PLAIN_H
#define SHA256_PLAIN_H
#include <stddef.h>
#include <stdint.h>

/* SHA-256 of one slice, in ordinary C: the yardstick of bench/hash.c. */
void sha256_plain(const uint8_t *bytes, size_t len, uint8_t out[32]);

#endif
