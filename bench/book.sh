#!/usr/bin/env bash
# The calls on the book of names against the same calls in plain C (gcc -O2), which hashes as often: microseconds and the ratio, best of 40 rounds of CPU
# time, or of fewer for a case that takes long. Both have to give the same answers and leave the same bytes, or there is no figure.
set -euo pipefail
cd "$(dirname "$0")/.."
. bench/build.bash
archive gateway
build book bench/book_plain.c bench/table_plain.c bench/sha256_plain.c
"$out/book"
