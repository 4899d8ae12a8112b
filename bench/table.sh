#!/usr/bin/env bash
# The calls on the table of names, the test that it is sound and the listing included, against the same calls in plain C (gcc -O2): microseconds and
# the ratio, best of 40 rounds of CPU time, or of fewer for a case that takes long. Both have to give the same answers and leave the same bytes, or there is
# no figure.
set -euo pipefail
cd "$(dirname "$0")/.."
. bench/build.bash
archive gateway
build table bench/table_plain.c bench/load_plain.c
"$out/table"
