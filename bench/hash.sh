#!/usr/bin/env bash
# The proved SHA-256 against a plain C one (gcc -O2) and OpenSSL's where it is installed: MB/s and ratios, best of 40 rounds of CPU time.
# OpenSSL runs twice, as it is and with the CPU's SHA extensions hidden from it: a compiler without intrinsics cannot reach those.
set -euo pipefail
cd "$(dirname "$0")/.."
. bench/build.bash
archive bench_hash
peer OPENSSL '#include <openssl/sha.h>' 'SHA256(0, 0, 0)' -lcrypto
build hash bench/sha256_plain.c
"$out/hash" OpenSSL
if [ ${#libs[@]} -gt 0 ]; then
  OPENSSL_ia32cap='~0x200000200000000:~0x20000000' "$out/hash" "OpenSSL, no extensions" | grep extensions
fi
